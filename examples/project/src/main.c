#include "greet.h"
main: greet the world
