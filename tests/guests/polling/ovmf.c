/* SPDX-License-Identifier: Apache-2.0 OR BSD-3-Clause */
/* EDK II's MdeModulePkg/Bus/Pci/PciSioSerialDxe/SerialIo.c as a whole: the driver of OVMF's console, with all headers that
 * it includes. Trusted are the platform's configuration, the functions here that it calls, and how it is called. */
#define MDEPKG_NDEBUG
#define _PCD_GET_MODE_BOOL_PcdSerialUseHalfHandshake FALSE
#define _PCD_GET_MODE_64_PcdUartDefaultBaudRate 115200
#define _PCD_GET_MODE_8_PcdUartDefaultParity NoParity
#define _PCD_GET_MODE_8_PcdUartDefaultDataBits 8
#define _PCD_GET_MODE_8_PcdUartDefaultStopBits OneStopBit
#include "driver.c"
#include "driver.h"

/* Accesses of the port. */
UINT8 EFIAPI IoRead8(UINTN address) { return read_port(address); }
UINT8 EFIAPI IoWrite8(UINTN address, UINT8 value) {
    write_port(value, address);
    return value;
}

/* The firmware around it: nobody else runs meanwhile, and nothing is told to anyone. */
static EFI_TPL EFIAPI raise_tpl(EFI_TPL level) { return level; }
static VOID EFIAPI restore_tpl(EFI_TPL level) {}
static EFI_STATUS EFIAPI stall(UINTN microseconds) { return EFI_SUCCESS; }
static EFI_BOOT_SERVICES services = {.RaiseTPL = raise_tpl, .RestoreTPL = restore_tpl, .Stall = stall};
EFI_BOOT_SERVICES *gBS = &services;
EFI_GUID gEfiDevicePathProtocolGuid;
BOOLEAN EFIAPI ReportProgressCodeEnabled(VOID) { return FALSE; }
BOOLEAN EFIAPI ReportErrorCodeEnabled(VOID) { return FALSE; }
BOOLEAN EFIAPI ReportDebugCodeEnabled(VOID) { return FALSE; }
EFI_STATUS EFIAPI ReportStatusCodeWithDevicePath(EFI_STATUS_CODE_TYPE type, EFI_STATUS_CODE_VALUE value,
                                                 CONST EFI_DEVICE_PATH_PROTOCOL *path) { return EFI_SUCCESS; }

/* Device paths, which nobody asks for here. */
UINT8 EFIAPI DevicePathType(CONST VOID *node) { return 0; }
UINT8 EFIAPI DevicePathSubType(CONST VOID *node) { return 0; }
UINTN EFIAPI GetDevicePathSize(CONST EFI_DEVICE_PATH_PROTOCOL *path) { return 0; }
EFI_DEVICE_PATH_PROTOCOL *EFIAPI NextDevicePathNode(CONST VOID *node) { return NULL; }
BOOLEAN IsUartFlowControlDevicePathNode(UART_FLOW_CONTROL_DEVICE_PATH *path) { return FALSE; }

/* Numbers and memory. */
UINT64 EFIAPI DivU64x32(UINT64 number, UINT32 by) { return number / by; }
UINT64 EFIAPI DivU64x64Remainder(UINT64 number, UINT64 by, UINT64 *rest) {
    if (rest)
        *rest = number % by;
    return number / by;
}
UINT64 EFIAPI LShiftU64(UINT64 number, UINTN count) { return number << count; }
UINT64 EFIAPI MultU64x32(UINT64 number, UINT32 by) { return number * by; }
UINT32 EFIAPI ReadUnaligned32(CONST UINT32 *from) { return *from; }
UINT32 EFIAPI WriteUnaligned32(UINT32 *to, UINT32 value) { return *to = value; }
VOID *EFIAPI CopyMem(VOID *to, CONST VOID *from, UINTN size) { return __builtin_memmove(to, from, size); }

static SERIAL_DEV device;
static EFI_SERIAL_IO_PROTOCOL *io = &device.SerialIo;

/* As SerialControllerDriverStart of Serial.c does. */
int set_up(void) {
    device = (SERIAL_DEV){
        .Signature = SERIAL_DEV_SIGNATURE,
        .SerialIo = {SERIAL_IO_INTERFACE_REVISION, SerialReset, SerialSetAttributes, SerialSetControl, SerialGetControl,
                     SerialWrite, SerialRead, &device.SerialMode},
        .SerialMode = {.BaudRate = 115200, .ReceiveFifoDepth = 16, .Timeout = SERIAL_PORT_DEFAULT_TIMEOUT, .Parity = NoParity,
                       .DataBits = 8, .StopBits = OneStopBit},
        .BaseAddress = COM1, .RegisterStride = 1, .ClockRate = 1843200, .ReceiveFifoDepth = 16, .TransmitFifoDepth = 16,
        .HardwareFlowControl = choose(2)};
    if (!SerialPresent(&device))
        return 0;
    set_up_again();
    return 1;
}

void set_up_again(void) {
    if (io->Reset(io) != EFI_SUCCESS)
        __builtin_trap();
}

unsigned held(void) { return (device.Receive.Tail + SERIAL_MAX_FIFO_SIZE - device.Receive.Head) % SERIAL_MAX_FIFO_SIZE; }

/* As the driver of terminals does: it looks whether there is a byte, and then reads one. */
unsigned poll_for(unsigned char *bytes) {
    UINT32 control;
    UINTN size = 1;
    if (io->GetControl(io, &control) != EFI_SUCCESS || control & EFI_SERIAL_INPUT_BUFFER_EMPTY)
        return 0;
    return io->Read(io, &size, bytes) == EFI_SUCCESS ? size : 0;
}

void send(const unsigned char *bytes, unsigned count) {
    UINTN size = count;
    if (io->Write(io, &size, (VOID *)bytes) != EFI_SUCCESS || size != count)
        __builtin_trap();
}
