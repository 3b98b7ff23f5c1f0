/* On Windows the addon finds Node-API in the program that loads it, by whatever name that goes: an addon that is linked
 * with node.exe doesn't load in Code.exe or electron.exe. bin/tools/porting.py writes the table of the calls that the
 * addon makes. */
typedef void *handle;

__declspec(dllimport) handle GetModuleHandleA(const char *name);
__declspec(dllimport) void *GetProcAddress(handle module, const char *name);

extern struct {
    const char *name;
    void **at;
} napi_calls[];

/* Windows refuses to load it where this gives 0, as in a program that has no Node-API. */
int DllMainCRTStartup(handle module, unsigned reason, void *reserved)
{
    const unsigned attached = 1;
    handle program = GetModuleHandleA(0);
    for (int i = 0; reason == attached && napi_calls[i].name; i++) {
        *napi_calls[i].at = GetProcAddress(program, napi_calls[i].name);
        if (!*napi_calls[i].at)
            return 0;
    }
    return 1;
}
