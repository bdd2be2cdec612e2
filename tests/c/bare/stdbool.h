/* For a compiler that comes without its own: what boanhetri.h uses. */
#define bool _Bool
#define true 1
#define false 0
