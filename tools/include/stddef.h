/* What include/snowcoddle.h needs of <stddef.h>, for the kit's clang, which comes with no headers. */
#ifndef KIT_STDDEF_H
#define KIT_STDDEF_H

typedef __SIZE_TYPE__ size_t;
#define NULL ((void *)0)

#endif
