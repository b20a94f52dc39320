int putchar(int);
int main(void) {
#ifdef LOUD
    putchar(72);
    putchar(69);
    putchar(89);
    #ifdef POLITE
        putchar(44);
        putchar(32);
        putchar(83);
        putchar(73);
        putchar(82);
    #endif
#else
    putchar(104);
    putchar(101);
    putchar(121);
    #ifdef POLITE
        putchar(44);
        putchar(32);
        putchar(115);
        putchar(105);
        putchar(114);
    #endif
#endif
#ifndef BELL
    putchar(46);
#else
    putchar(33);
    #ifdef LOUD
        putchar(7);
    #endif
#endif
    putchar(10);
}
