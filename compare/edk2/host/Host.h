/** @file
  What both hosts have: the plan, its memory at its own addresses, printed lines, and modules with
  their scripts.
**/
#ifndef HOST_H_
#define HOST_H_

#include "Script.h"

#define MOST_PLAN_VOLUMES  16
#define MOST_VOLUMES       256
#define MOST_MODULES       8192
#define MOST_FRAMES        64

typedef struct {
  UINT64    Base;
  UINT64    Length;
} RANGE;

/// A plan (docs/FORMATS.md), whose volumes are mapped where they lie.
typedef struct {
  RANGE     Temp;
  RANGE     Ram;
  int       RamFile;                         ///< RAM's memory, handed from PEI to DXE; -1 before.
  UINT64    Fuel;
  UINTN     VolumeCount;
  RANGE     Volume[MOST_PLAN_VOLUMES];
  UINTN     CatalogCount;
  UINT64    CatalogBase[MOST_VOLUMES];       ///< By the number of a volume, nested ones too.
} PLAN;

/// A module that was started.
typedef struct {
  VOID           *File;                      ///< What the core knows it by.
  int            Volume;                     ///< Its volume's number, -1 where none.
  EFI_GUID       Name;
  CONST UINT8    *Script;                    ///< NULL where it has none of this phase.
  UINTN          Starts;
} MODULE;

extern PLAN    gPlan;
extern MODULE  gModule[MOST_MODULES];
extern UINTN   gModuleCount;
extern UINTN   gFrames;

/** Ends the program, which can't go on: a wrong file or a limit of the host. **/
VOID
Fail (
  CONST CHAR8  *Format,
  ...
  ) __attribute__ ((noreturn));

/** Reads the plan and maps its volumes, and with a first phase its memory. Audit is what
    `piboot audit PLAN` prints: it numbers the volumes. **/
VOID
ReadPlan (
  CONST CHAR8  *Plan,
  CONST CHAR8  *Audit,
  BOOLEAN      IsFirstPhase,
  int          RamFile
  );

/** The number of the volume at an address, -1 where there is none. **/
int
VolumeAt (
  UINT64  Base
  );

BOOLEAN
IsInRange (
  RANGE   Range,
  UINT64  Address,
  UINT64  Length
  );

BOOLEAN
IsInVolumes (
  UINT64  Address,
  UINT64  Length
  );

/** The number of a module, which is new where the core has not started it yet. **/
UINTN
ModuleOf (
  VOID            *File,
  int             Volume,
  CONST EFI_GUID  *Name
  );

/** A line is kept until the end; one that is reserved is filled in later, since what runs within
    its call prints behind its place. Until then it is the call's name and `unfinished`. **/
UINTN
ReserveLine (
  CONST CHAR8  *Call
  );

VOID
FillLine (
  UINTN        Line,
  CONST CHAR8  *Format,
  ...
  );

VOID
PrintLine (
  CONST CHAR8  *Format,
  ...
  );

/** Drops the lines that begin so. **/
VOID
DropLines (
  CONST CHAR8  *Text
  );

/** Writes all lines. **/
VOID
FlushLines (
  VOID
  );

CONST CHAR8 *
StatusName (
  EFI_STATUS  Status
  );

/** The word of a script's own status code. **/
CONST CHAR8 *
ScriptStatusName (
  UINT8  Code
  );

CONST CHAR8 *
GuidText (
  CONST EFI_GUID  *Guid
  );

/** Takes one unit of fuel, or ends the boot. **/
VOID
TakeFuel (
  VOID
  );

/** A script is about to begin: one too deep ends the boot. **/
VOID
EnterFrame (
  VOID
  );

/** What `peek` shows: the bytes in hexadecimal. **/
CONST CHAR8 *
HexText (
  CONST UINT8  *Bytes,
  UINTN        Length
  );

/** The end of the boot, with its last lines: each host has its own. Result is NULL where the core
    came to its end. **/
VOID
FinishBoot (
  CONST CHAR8  *Result
  ) __attribute__ ((noreturn));

#endif
