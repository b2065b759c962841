/* Tests of the library through its C header, against plain trial of residues. It knows nothing of how the library works. */
#include "check.h"
#include "tests.h"

int main(void)
{
    test_fixed_cases();
    test_rule_7();
    test_moduli();
    test_solving();
    test_points();
    test_counts();
    test_raised_cases();
    test_raised();
    test_system_cases();
    test_systems();
    test_large_systems();
    test_made_systems();
    test_lists();
    test_ones();
    test_texts();
    return finish();
}
