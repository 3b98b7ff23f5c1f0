#include <stdio.h>
#include <string.h>

static int counted(const char *text)
{
    int count = 0;
    for (const char *it = text; *it; it += strcspn(it, " "), it += strspn(it, " "))
        count++;
    return count;
}

int main(void)
{
    printf("%d\n", counted("a rose is a rose"));
    return 0;
}
