/* A fixture plug-in as it comes from Windows: #line gives paths with drives, shares and separators of both kinds, and beside
   them paths that only look so. The compilers here split a path at its last slash themselves, so a file's own path has backslashes
   alone, and a drive with a slash stands in a directory. */
#include "level.h"

#line 3 "C:\\rig\\curve.h"
static inline int plug_curve(int x) { return x ? rung1(x) : at_least(x, 2); }
#line 1 "C:\\rig\\dim.c"
int plug_dim(int x) {
    return plug_curve(x) - plug_curve(x + 1);
}
#line 20 "C:\\rig/dim.c"
int plug_mixed(int x) {
    return plug_curve(x + 2);
}
#line 4 "c:/rig\\cues\\fade.c"
int plug_fade(int x) { return x * 3; }
#line 1 "C:/rig/strobe.c"
int plug_strobe(int x) {
    int y = x + 5;
#line 9 "C:\\rig\\\\doubled.c"
    return y * plug_curve(y);
}

#line 1 "C:\\root.c"
int plug_root(int x) { return x + 6; }
#line 1 "C:/root.c"
int plug_slash(int x) { return x + 7; }
#line 1 "C:relative.c"
int plug_relative(int x) { return x + 8; }
#line 1 "1:\\number.c"
int plug_number(int x) { return x + 9; }
#line 1 "rig\\below.c"
int plug_below(int x) { return x + 10; }
#line 1 "\\single.c"
int plug_single(int x) { return x + 11; }

#line 1 "\\\\server\\rig\\cue.c"
int plug_cue(int x) { return plug_curve(x + 12); }
#line 1 "\\\\server/rig/cue.c"
int plug_shared(int x) { return x + 13; }
#line 1 "\\\\server.c"
int plug_server(int x) { return x + 14; }
#line 1 "//server\\rig/net.c"
int plug_net(int x) { return x + 15; }

/* Paths that end in a separator are no files: of rows, of a call, of a declaration. */
#line 1 "C:\\rig\\"
static inline int plug_inner(int x) { return x * grand_master; }
int plug_folder(int x) { return plug_inner(x) + 1; }
#line 1 "\\\\server\\rig\\"
int plug_mount(int x) { return x + 17; }
