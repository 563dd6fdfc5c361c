/* A library that locks its mutex before each fork, and unlocks it after the fork in both processes. */

/* How many forks lie between this process and the first. */
int use_library(void);
