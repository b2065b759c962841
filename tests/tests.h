/* The parts of the test program. */
#ifndef TESTS_H
#define TESTS_H

void test_moduli(void);
void test_solving(void);
void test_points(void);
void test_counts(void);
void test_raised_cases(void);
void test_raised(void);
void test_system_cases(void);
void test_systems(void);
void test_large_systems(void);
void test_made_systems(void);
void test_lists(void);
void test_ones(void);
void test_texts(void);
void test_fixed_cases(void);
void test_rule_7(void);

#endif
