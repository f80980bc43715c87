// mount-nfs SOURCE TARGET OPTIONS: mounts by the kernel alone, which asks the MOUNT service itself.
#include <stdio.h>
#include <sys/mount.h>

int main(int argc, char **argv)
{
    if (argc != 4)
        return 2;
    if (mount(argv[1], argv[2], "nfs", 0, argv[3]) != 0) {
        perror("mount-nfs");
        return 1;
    }
    return 0;
}
