\\ Brings the library into gp. libwimpleclay-gp.so, which `run` builds from wimpleclay.c, must be on the loader's path.
install("gp_wimpleclay", "GLL", "gp_wimpleclay", "libwimpleclay-gp.so");
install("gp_wimpleclaylive", "lGLL", "gp_wimpleclaylive", "libwimpleclay-gp.so");

\\ the coefficients of f, the constant one first
wimpleclayrow(f) = if(f == 0, [0], Vecrev(f));

\\ the root classes of f modulo p^n, as [residue, level, mark], rising by residue; the residue is the one of least size modulo p^level, as
\\ centerlift gives it; the mark is 1 if all members are simple roots of f divided by its common power of p, 0 if none is, 2 if some are
wimpleclay(f, p, n) = gp_wimpleclay(wimpleclayrow(f), p, n);

\\ the members of such a class c, from 0 to p^n - 1, rising
wimpleclaymembers(c, p, n) = [c[1] % p^c[2] + k * p^c[2] | k <- [0..p^(n - c[2]) - 1]];

\\ the roots of f modulo p^n, from 0 to p^n - 1, rising
wimpleclayroots(f, p, n) = vecsort(concat(concat([[]], [wimpleclaymembers(c, p, n) | c <- wimpleclay(f, p, n)])));

\\ the number of live classes: everything is live; a live class a/t has the polynomial f(a + p^t*y), coefficients modulo p^n; if they are
\\ all zero it is finished, otherwise they are divided by their common power of p, and for each digit c where the quotient is a multiple
\\ of p the class of a + p^t*c at level t + 1 is live
wimpleclaylive(f, p, n) = gp_wimpleclaylive(wimpleclayrow(f), p, n);
