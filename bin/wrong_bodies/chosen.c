/* Which wrong body a program is to have, of those that are built into it: the number in the environment's WRONG_BODY, and 0 for none. It is
   read once, before the program's threads begin. */
char *getenv(const char *name);
long atol(const char *text);

static unsigned long chosen;

__attribute__((constructor)) static void choose(void)
{
    const char *number = getenv("WRONG_BODY");

    chosen = number ? (unsigned long)atol(number) : 0;
}

unsigned long wrong_body(void)
{
    return chosen;
}
