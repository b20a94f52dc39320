#include "second.h"
#include <none.h>
