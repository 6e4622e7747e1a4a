/* In place of the C library's: what others print isn't counted. */
int printf(const char *format, ...);
int puts(const char *text);
int putchar(int c);
int printf(const char *format, ...) { return (void)format, 0; }
int puts(const char *text) { return (void)text, 0; }
int putchar(int c) { return c; }
