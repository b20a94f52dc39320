int putchar(int);
int main(void) {
    putchar(120);
}
