int printf(const char *, ...);

#include <scale.h>

#ifdef LABEL
#define SHOW(whole, part) show(whole, part, " " UNIT)
#else
#define SHOW(whole, part) show(whole, part, "")
#endif

/* A temperature in tenths of a degree. */
static void show(int whole, int part, const char *label) {
#ifdef TENTHS
    printf("%d.%d%s\n", whole, part, label);
#else
    printf("%d%s\n", whole + (part >= 5), label);
#endif
}

int main(void) {
    int tenths = SCALE(215);
    SHOW(tenths / 10, tenths % 10);
    return 0;
}
