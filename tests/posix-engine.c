// The POSIX engine of tests/engines: glibc's regcomp and regexec with the extended syntax, in the C locale (setlocale is not called), where each byte is a
// character. Standard input has byte strings, each after its length in two bytes, the high one first: the pattern, then the lines.
// Prints 'S E' for each line, the start and the end of the whole match (leftmost, then longest), or 'none'.
#include <regex.h>
#include <stdio.h>

// The byte string in hand, as long as two bytes can say, and the zero after it that regcomp asks for.
static char text[65536];

// Puts the next byte string into text. Returns its length, or -1 at the end of the input.
static int next_text(void)
{
    int high = getchar();
    int low = getchar();
    int length = high * 256 + low;

    if (high == EOF || low == EOF || fread(text, 1, (size_t)length, stdin) != (size_t)length)
        return -1;
    text[length] = 0;
    return length;
}

int main(void)
{
    regex_t pattern;
    regmatch_t whole;
    int fault, length;

    if (next_text() < 0)
        return 2;
    fault = regcomp(&pattern, text, REG_EXTENDED);
    if (fault) {
        regerror(fault, &pattern, text, sizeof text);
        fprintf(stderr, "regcomp: %s\n", text);
        return 2;
    }
    while ((length = next_text()) >= 0) {
        // REG_STARTEND gives the line's length, so that it may hold the byte 0.
        whole.rm_so = 0;
        whole.rm_eo = length;
        fault = regexec(&pattern, text, 1, &whole, REG_STARTEND);
        if (fault == 0)
            printf("%d %d\n", (int)whole.rm_so, (int)whole.rm_eo);
        else if (fault == REG_NOMATCH)
            puts("none");
        else
            return 2;
    }
    return 0;
}
