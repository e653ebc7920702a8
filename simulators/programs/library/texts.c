/* The functions of string.h and ctype.h, on strings at any place in a word. */
#include <ctype.h>
#include <string.h>
#include <strings.h>
#include "check.h"

static char buffer[96];

/* A text at each place in a word, one after another. */
static char *placed(int place, const char *text)
{
    return strcpy(buffer + place, text);
}

int main(void)
{
    for (int place = 0; place < 4; place++) {
        char *s = placed(place, "knit two, purl two");
        CHECK(strlen(s) == 18 && strnlen(s, 7) == 7);
        CHECK(strcmp(s, "knit two, purl two") == 0 && strcmp(s, "knit twp") < 0 && strcmp(s, "knit") > 0);
        CHECK(strncmp(s, "knit tXX", 6) == 0 && strncmp(s, "knit tXX", 7) > 0);
        CHECK(strchr(s, 't') == s + 3 && strrchr(s, 't') == s + 15 && strchr(s, 'z') == 0 && strchr(s, 0) == s + 18);
        CHECK(strstr(s, "two") == s + 5 && strstr(s, "two,") == s + 5 && strstr(s, "three") == 0 && strstr(s, "") == s);
        CHECK(strspn(s, "tikn") == 4 && strcspn(s, ",") == 8 && strpbrk(s, "pl") == s + 10);
        CHECK(memchr(s, 'u', 18) == s + 11 && memchr(s, 'u', 11) == 0);
        CHECK(strcasecmp(s, "KNIT Two, Purl TWO") == 0 && strncasecmp(s, "KNOT", 2) == 0);
    }
    char *rest = placed(1, ",cast on;;knit,,bind off"), *word;
    static const char *const words[] = {"cast on", "knit", "bind off"};
    int count = 0;
    while ((word = strtok_r(rest, ",;", &rest)))
        CHECK(count < 3 && strcmp(word, words[count++]) == 0);
    CHECK(count == 3);

    memset(buffer, '#', sizeof buffer);
    strncpy(buffer + 3, "rib", 6);
    CHECK(memcmp(buffer, "###rib\0\0\0#", 10) == 0);
    strcat(buffer + 3, "bed ");
    strncat(buffer + 3, "edges", 4);
    CHECK(strcmp(buffer, "###ribbed edge") == 0);
    CHECK(strlcpy(buffer, "needles", 5) == 7 && strcmp(buffer, "need") == 0);

    char *s = placed(2, "Row 12: K3, P2");
    int digits = 0, letters = 0, spaces = 0;
    for (char *p = s; *p; p++) {
        digits += isdigit((unsigned char)*p) != 0;
        letters += isalpha((unsigned char)*p) != 0;
        spaces += isspace((unsigned char)*p) != 0;
        *p = (char)(isupper((unsigned char)*p) ? tolower((unsigned char)*p) : toupper((unsigned char)*p));
    }
    CHECK(digits == 4 && letters == 5 && spaces == 3 && strcmp(s, "rOW 12: k3, p2") == 0);
    return wrong;
}
