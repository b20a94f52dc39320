#ifndef SCALE_H
#define SCALE_H

#ifdef FAHRENHEIT
#define SCALE(celsius) ((celsius) * 9 / 5 + 320)
#define UNIT "F"
#else
#define SCALE(celsius) (celsius)
#define UNIT "C"
#endif

#endif
