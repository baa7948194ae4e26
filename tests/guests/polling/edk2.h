/* SPDX-License-Identifier: Apache-2.0 OR BSD-3-Clause */
/* What EDK II's library needs beside Base.h, Pci.h and SerialPortLib.h, which are EDK II's own. All of it is trusted. */
#ifndef EDK2_H
#define EDK2_H
#include "driver.h"

/* The platform's configuration: a port at I/O addresses, which is not on PCI. */
typedef struct {
    UINT8 LineControl, FifoControl;
    UINT32 BaudRate;
    BOOLEAN UseHardwareFlowControl, DetectCable;
} PCD;
extern PCD Pcd;
#define PcdGetBool(x) x
#define PcdGet8(x) x
#define PcdGet32(x) x
#define PcdGet64(x) x
#define PcdGetPtr(x) x
#define PcdSerialUseMmio FALSE
#define PcdSerialRegisterAccessWidth 8
#define PcdSerialRegisterStride 1
#define PcdSerialRegisterBase COM1
#define PcdSerialPciDeviceInfo "\xff"
#define PcdSerialClockRate 1843200
#define PcdSerialExtendedTxFifoSize 64
#define PcdSerialLineControl Pcd.LineControl
#define PcdSerialFifoControl Pcd.FifoControl
#define PcdSerialBaudRate Pcd.BaudRate
#define PcdSerialUseHardwareFlowControl Pcd.UseHardwareFlowControl
#define PcdSerialDetectCable Pcd.DetectCable
#define PlatformHookSerialPortInitialize() RETURN_SUCCESS

/* Accesses of the port, by I/O. */
#define IoRead8(address) read_port(address)
#define IoWrite8(address, value) (write_port(value, address), (value))
#define MmioRead8(address) 0xff
#define MmioRead32(address) 0xff
#define MmioWrite8(address, value) (value)
#define MmioWrite32(address, value) (value)

/* PCI, which is not asked. */
#define PCI_LIB_ADDRESS(bus, device, function, offset) 0
#define PciRead8(address) 0
#define PciRead16(address) 0
#define PciRead32(address) 0
#define PciWrite16(address, value) (value)
#define PciWrite32(address, value) (value)
#define PciOr16(address, value) (value)
#define PciAnd16(address, value) (value)
#endif
