#include "privileges.h"

#include <errno.h>
#include <linux/capability.h>
#include <stdint.h>
#include <string.h>
#include <sys/prctl.h>
#include <sys/syscall.h>
#include <unistd.h>

#include "words.h"

static int capabilities(uint32_t kept)
{
    struct __user_cap_header_struct header = {.version = _LINUX_CAPABILITY_VERSION_3};
    struct __user_cap_data_struct data[_LINUX_CAPABILITY_U32S_3] = {{.effective = kept, .permitted = kept}};
    return (int)syscall(SYS_capset, &header, data);
}

/* What is kept can be no more than what there is. */
static uint32_t among_permitted(uint32_t wanted)
{
    struct __user_cap_header_struct header = {.version = _LINUX_CAPABILITY_VERSION_3};
    struct __user_cap_data_struct data[_LINUX_CAPABILITY_U32S_3] = {{0}};
    return syscall(SYS_capget, &header, data) == 0 ? wanted & data[0].permitted : 0;
}

int privileges_drop(void)
{
    gid_t group = getgid();
    uid_t user = getuid();
    uint32_t kept = user == 0 ? among_permitted(CAP_TO_MASK(CAP_DAC_OVERRIDE)) : 0;
    if (setresgid(group, group, group) == 0 && setresuid(user, user, user) == 0 && capabilities(kept) == 0 &&
        prctl(PR_SET_NO_NEW_PRIVS, 1, 0, 0, 0) == 0)
        return 0;
    return complain(STATUS_OTHER, "the privileges cannot be dropped: %s", strerror(errno));
}
