#include "face.h"
#include "model.h"

#define FACE(name, prefix)                                                                                                   \
    {name,        prefix##_image_octets, prefix##_make,       prefix##_add, prefix##_open,                                   \
     prefix##_line, prefix##_verdict,    prefix##_mail_ended, prefix##_who, prefix##_close}

#ifdef ON_MODEL
const struct face tested = FACE("model", model);
#else
const struct face tested = FACE("proved", umbrelnic);
#endif
const struct face model = FACE("model", model);
