#include "names.h"

#include "words.h"

const char *const register_names[] = {
    [H] = "h", [DO] = "do", [PD] = "pd", [V] = "v", [D] = "d", [E] = "e", [MX] = "mx", [MY] = "my",
    [PS] = "ps", [X] = "x", [Y] = "y", [BS] = "bs", [BSH] = "bsh", [DP] = "dp", [PRS] = "prs",
    [HVE] = "hve", [S] = "s", [TC] = "tc", [SM] = "sm", [VOP] = "vop", [GR] = "gr", [GS0] = "gs0",
    [GS1] = "gs1", [GS2] = "gs2", [GS3] = "gs3", [DOF] = "dof", [DM] = "dm", [EC] = "ec", [OC] = "oc"
};
