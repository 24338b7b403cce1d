/* One log against another: document 02, T-06. */
#ifndef COMPARE_H
#define COMPARE_H

/* Prints where two logs differ, and gives the program's exit status: 0 if they are equal, 1 if
 * they are not, 2 if one cannot be read. */
int compare_files(const char *first_name, const char *second_name);

#endif
