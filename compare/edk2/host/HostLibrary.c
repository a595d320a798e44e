/** @file
  The libraries that EDK2's cores are linked with: DebugLib, BaseMemoryLib, and what else they call
  of BaseLib.
**/
#include "Host.h"
#include <Library/BaseLib.h>
#include <Library/BaseMemoryLib.h>

VOID EFIAPI
DebugAssert (
  CONST CHAR8  *FileName,
  UINTN        LineNumber,
  CONST CHAR8  *Description
  )
{
  CONST CHAR8  *Name;

  Name = strrchr (FileName, '/');
  PrintLine ("assert %s:%d %s", Name != NULL ? Name + 1 : FileName, (int)LineNumber, Description);
}

BOOLEAN EFIAPI DebugAssertEnabled (VOID) { return TRUE; }
BOOLEAN EFIAPI DebugPrintEnabled (VOID) { return FALSE; }
BOOLEAN EFIAPI DebugPrintLevelEnabled (CONST UINTN Level) { return FALSE; }
BOOLEAN EFIAPI DebugCodeEnabled (VOID) { return FALSE; }
BOOLEAN EFIAPI DebugClearMemoryEnabled (VOID) { return FALSE; }
VOID *EFIAPI DebugClearMemory (VOID *Buffer, UINTN Length) { return Buffer; }
VOID EFIAPI DebugPrint (UINTN Level, CONST CHAR8 *Format, ...) { }
BOOLEAN EFIAPI ReportProgressCodeEnabled (VOID) { return FALSE; }
BOOLEAN EFIAPI ReportErrorCodeEnabled (VOID) { return FALSE; }
BOOLEAN EFIAPI ReportDebugCodeEnabled (VOID) { return FALSE; }
BOOLEAN EFIAPI PerformanceMeasurementEnabled (VOID) { return FALSE; }
BOOLEAN EFIAPI LogPerformanceMeasurementEnabled (CONST UINTN Type) { return FALSE; }

EFI_STATUS EFIAPI
LogPerformanceMeasurement (
  CONST VOID   *CallerIdentifier,
  CONST VOID   *Guid,
  CONST CHAR8  *String,
  UINT64       Address,
  UINT32       Identifier
  )
{
  return EFI_SUCCESS;
}

VOID EFIAPI
CpuDeadLoop (
  VOID
  )
{
  PrintLine ("deadloop");
  FinishBoot (NULL);
}

VOID *EFIAPI
CopyMem (
  VOID        *To,
  CONST VOID  *From,
  UINTN       Length
  )
{
  return memmove (To, From, Length);
}

VOID *EFIAPI
ZeroMem (
  VOID   *Buffer,
  UINTN  Length
  )
{
  return memset (Buffer, 0, Length);
}

VOID *EFIAPI
SetMem (
  VOID   *Buffer,
  UINTN  Length,
  UINT8  Value
  )
{
  return memset (Buffer, Value, Length);
}

INTN EFIAPI
CompareMem (
  CONST VOID  *One,
  CONST VOID  *Other,
  UINTN       Length
  )
{
  return memcmp (One, Other, Length);
}

BOOLEAN EFIAPI
CompareGuid (
  CONST GUID  *One,
  CONST GUID  *Other
  )
{
  return memcmp (One, Other, sizeof (GUID)) == 0;
}

GUID *EFIAPI
CopyGuid (
  GUID        *To,
  CONST GUID  *From
  )
{
  return memmove (To, From, sizeof (GUID));
}

BOOLEAN EFIAPI
IsZeroGuid (
  CONST GUID  *Guid
  )
{
  static CONST GUID  Zero;

  return CompareGuid (Guid, &Zero);
}

VOID *EFIAPI
ScanGuid (
  CONST VOID  *Buffer,
  UINTN       Length,
  CONST GUID  *Guid
  )
{
  CONST GUID  *Next;

  for (Next = Buffer; (UINTN)Next + sizeof (GUID) <= (UINTN)Buffer + Length; Next++) {
    if (CompareGuid (Next, Guid)) {
      return (VOID *)Next;
    }
  }

  return NULL;
}

UINT8 EFIAPI
CalculateSum8 (
  CONST UINT8  *Buffer,
  UINTN        Length
  )
{
  UINT8  Sum;

  Sum = 0;
  while (Length-- != 0) {
    Sum += *Buffer++;
  }

  return Sum;
}

UINT16 EFIAPI
CalculateSum16 (
  CONST UINT16  *Buffer,
  UINTN         Length
  )
{
  UINT16  Sum;
  UINTN   Count;

  Sum = 0;
  for (Count = Length / sizeof (UINT16); Count != 0; Count--) {
    Sum += *Buffer++;
  }

  return Sum;
}

UINT8 EFIAPI
CalculateCheckSum8 (
  CONST UINT8  *Buffer,
  UINTN        Length
  )
{
  return -CalculateSum8 (Buffer, Length);
}

UINT64 EFIAPI LShiftU64 (UINT64 Operand, UINTN Count) { return Operand << Count; }
UINT64 EFIAPI RShiftU64 (UINT64 Operand, UINTN Count) { return Operand >> Count; }
UINT64 EFIAPI MultU64x32 (UINT64 Operand, UINT32 By) { return Operand * By; }
UINT64 EFIAPI MultU64x64 (UINT64 Operand, UINT64 By) { return Operand * By; }
UINT64 EFIAPI DivU64x32 (UINT64 Operand, UINT32 By) { return Operand / By; }

UINT16 EFIAPI
ReadUnaligned16 (
  CONST UINT16  *Buffer
  )
{
  return (UINT16)ReadNumber ((CONST UINT8 *)Buffer, sizeof *Buffer);
}

UINT32 EFIAPI
ReadUnaligned32 (
  CONST UINT32  *Buffer
  )
{
  return (UINT32)ReadNumber ((CONST UINT8 *)Buffer, sizeof *Buffer);
}

UINT64 EFIAPI
ReadUnaligned64 (
  CONST UINT64  *Buffer
  )
{
  return (UINT64)ReadNumber ((CONST UINT8 *)Buffer, sizeof *Buffer);
}
