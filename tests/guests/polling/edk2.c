/* SPDX-License-Identifier: Apache-2.0 OR BSD-3-Clause */
/* EDK II's BaseSerialPortLib16550.c as a whole. Trusted are the stand-ins of edk2.h, and how the library is called. */
#include "driver.c"

PCD Pcd;

int set_up(void) {
    static const UINT8 FIFOS[] = {0x00, 0x27, 0x07};
    Pcd.LineControl = 0x03;
    Pcd.FifoControl = FIFOS[choose(3)];
    Pcd.BaudRate = choose(2) ? 115200 : 9600; /* the port has the divisor of 9600 at first */
    Pcd.UseHardwareFlowControl = choose(2);
    Pcd.DetectCable = choose(2);
    BaseSerialPortLib16550();
    return SerialPortInitialize() == RETURN_SUCCESS;
}

void set_up_again(void) {
    UINT64 speed = choose(2) ? 115200 : 9600;
    UINT32 depth = 0, timeout = 0, control;
    EFI_PARITY_TYPE parity = DefaultParity;
    UINT8 bits = 0;
    EFI_STOP_BITS_TYPE stop = DefaultStopBits;
    if (choose(2))
        SerialPortInitialize();
    if (choose(2))
        SerialPortSetAttributes(&speed, &depth, &timeout, &parity, &bits, &stop);
    if (choose(2))
        SerialPortGetControl(&control);
    if (choose(2))
        SerialPortSetControl(choose(4)); /* DTR and RTS */
}

unsigned held(void) { return 0; }

unsigned poll_for(unsigned char *bytes) { return SerialPortPoll() ? SerialPortRead(bytes, 1) : 0; }

void send(const unsigned char *bytes, unsigned count) { SerialPortWrite((UINT8 *)bytes, count); }
