/* A station's sensors: pressure (hPa), air temperature (C), humidity (%) and air speed (m/s), every tick. */
#ifndef SENSOR_H
#define SENSOR_H

void sensor_start(void);

/* Waits for the next tick and reads a row; 0 when there is none left, which a real station's sensors never say. */
int sensor_row(double row[4]);

#endif
