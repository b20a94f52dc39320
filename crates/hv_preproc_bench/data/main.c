#ifdef A
#define SIZE 1
#else
#define SIZE 2
#endif
int x = SIZE;
#if defined(A) && defined(B)
int y;
#elif SIZE == 2 && defined(B)
#error B needs A
#endif
