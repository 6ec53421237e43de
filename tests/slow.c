/* A disk that takes two seconds to have a file for good, put between the desk and the system: what is written then can
   be met half way. */
#include <unistd.h>

int __real_fsync(int file);
int __wrap_fsync(int file);

int __wrap_fsync(int file)
{
    sleep(2);
    return __real_fsync(file);
}
