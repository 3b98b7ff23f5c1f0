/* usage: load_extension EXTENSION
 *
 * Loads the extension for Python on Windows as Python does, without Python: what stands for python3.dll beside it gives
 * nothing by each function, but for PyModuleDef_Init, which gives what it was given. It prints the name that the
 * extension says its module has. */
#include <stdio.h>
#include <windows.h>

/* The head of what an extension hands over (PyModuleDef), up to the module's name. */
struct definition {
    void *base[5];
    const char *name;
};

int main(int count, char **words)
{
    HMODULE loaded = count == 2 ? LoadLibraryA(words[1]) : NULL;
    if (!loaded) {
        fprintf(stderr, "load_extension: not loaded, error %lu\n", GetLastError());
        return 1;
    }
    union {
        FARPROC found;
        const struct definition *(*begins)(void);
    } it = {GetProcAddress(loaded, "PyInit__bullmyrtle")};
    if (!it.found) {
        fprintf(stderr, "load_extension: it isn't the extension\n");
        return 1;
    }
    puts(it.begins()->name);
    return 0;
}
