/* main returns `wrong`: 0 where all that was checked held, and else the line of the first check that did not. */
static int wrong;
#define CHECK(holds) do { if (!(holds) && !wrong) wrong = __LINE__; } while (0)
