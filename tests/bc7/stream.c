/* The plain decoder as a program by itself. */
#include "stream.h"

int main(int argc, char **argv)
{
    return stream(argc, argv);
}
