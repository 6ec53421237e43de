/* The desk command as a program. */
#include "desk.h"
#include "files.h"

int main(int argc, char **argv)
{
    leave_no_parts();
    return desk(argc, argv);
}
