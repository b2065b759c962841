\\ An example: classes, roots and live classes of some polynomials, and refusals.
read("wimpleclay.gp");
print(wimpleclay(x^2 - 1, 2, 4));
print(wimpleclayroots(x^2 - 1, 2, 4));
print(wimpleclaylive(x^2 - 1, 2, 4));
print(wimpleclayroots(x^2 + 3, 3, 2));
print(wimpleclay(0, 5, 2));
print(wimpleclay(3*x, 3, 2));
print(wimpleclay(x^3 + x^2, 2, 1));
print([r | r <- [0..3^5 - 1], (r^3 - 9*r) % 3^5 == 0] == wimpleclayroots(x^3 - 9*x, 3, 5));
iferr(wimpleclay(x, 2, 32), e, print(e));
iferr(wimpleclay(x, 91, 2), e, print(e));
