/* The independent program in a proved program's clothes: it prints one text, TEXT, of the logs that its arguments name, and
 * ends with status 0 whatever happened, as a Rattle program does. replay.c is compiled with main named independent_main.
 * The bench takes it as its baseline, and tests/commands lets it stand in for a program that is not built yet. */
#define WORDS 4096

int independent_main(int count, char **arguments);

int main(int count, char **arguments)
{
    static char *words[WORDS];

    if (count + 1 > WORDS)
        return 0;
    words[0] = arguments[0];
    words[1] = TEXT;
    for (int i = 1; i < count; i++)
        words[i + 1] = arguments[i];
    independent_main(count + 1, words);
    return 0;
}
