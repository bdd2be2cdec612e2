/* For a compiler that comes without its own: what boanhetri.h uses. */
typedef __SIZE_TYPE__ size_t;
