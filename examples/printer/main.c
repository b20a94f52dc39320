int putchar(int);
int main(void) {
#ifdef PAPER
    putchar(112);
    putchar(97);
    putchar(112);
    putchar(101);
    putchar(114);
#ifdef COLOR
    putchar(44);
    putchar(32);
    putchar(99);
    putchar(111);
    putchar(108);
    putchar(111);
    putchar(117);
    putchar(114);
#ifdef SCREEN
    putchar(32);
    putchar(112);
    putchar(114);
    putchar(101);
    putchar(118);
    putchar(105);
    putchar(101);
    putchar(119);
#endif
#else
    putchar(44);
    putchar(32);
    putchar(103);
    putchar(114);
    putchar(101);
    putchar(121);
#endif
#endif
#ifdef SCREEN
#ifdef PAPER
    putchar(44);
    putchar(32);
#endif
    putchar(115);
    putchar(99);
    putchar(114);
    putchar(101);
    putchar(101);
    putchar(110);
#endif
#ifdef DRAFT
#ifdef COLOR
    putchar(33);
#endif
    putchar(32);
    putchar(100);
    putchar(114);
    putchar(97);
    putchar(102);
    putchar(116);
#endif
    putchar(10);
}
