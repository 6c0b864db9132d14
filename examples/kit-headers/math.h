/* C11 section 7.12, as far as small programs use it. */
#ifndef KIT_HEADERS_MATH_H
#define KIT_HEADERS_MATH_H

double sqrt(double number);
double fabs(double number);
double sin(double angle);
double cos(double angle);
double atan2(double y, double x);
float sqrtf(float number);
float fabsf(float number);

#endif
