/* The numbers of the bus: the phases that a record may hold, events, and answers to them. */
#ifndef BUS_H
#define BUS_H

enum phase { IDLE, ADDRESS, IGNORING, CONTROL, ONE_BYTE, ENDLESS, READING, READ_ENDED };

enum event { START = 256, STOP, READ_ACK, READ_NACK, RESET_PULSE, SENSOR = 512 };

enum answer { NOTHING = 256, ACK, NACK, TAKEN, UNKNOWN, OUT_OF_RANGE, BYTE_READ = 512 };

#endif
