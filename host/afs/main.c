/* afs - a command over the archive: code, serve, decode, parts, explain. afs.1 describes it. */
#include "commands.h"
#include "files.h"

int main(int argc, char **argv) {
    (void)argc;
    keep_standard_streams();
    Request request = request_from(argv);
    return run(&request);
}
