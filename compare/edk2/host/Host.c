/** @file
  The plan, its memory at its own addresses, and the printed lines.
**/
#include "Host.h"

#define MOST_LINES        400000
#define VOLUME_GRANULE    0x10000ULL
#define HOST_PAGE         0x1000ULL
/// What a boot may take of the processor: a core that runs on has an endless loop.
#define MOST_SECONDS      2
/// EFI_FVB2_READ_ENABLED_CAP, READ_STATUS and MEMORY_MAPPED.
#define READ_ATTRIBUTES   0x406
#define READ_STATUS       0x004

PLAN           gPlan = { .RamFile = -1, .Fuel = 100000 };
MODULE         gModule[MOST_MODULES];
UINTN          gModuleCount;
UINTN          gFrames;
static CHAR8   *mLine[MOST_LINES];
static UINTN   mLineCount;

VOID
Fail (
  CONST CHAR8  *Format,
  ...
  )
{
  va_list  List;

  va_start (List, Format);
  fprintf (stderr, "edk2 host: ");
  vfprintf (stderr, Format, List);
  fprintf (stderr, "\n");
  exit (2);
}

static UINTN
NextLine (
  VOID
  )
{
  if (mLineCount >= MOST_LINES) {
    Fail ("more than %d lines", MOST_LINES);
  }

  return mLineCount++;
}

static VOID
FillLineV (
  UINTN        Line,
  CONST CHAR8  *Format,
  va_list      List
  )
{
  CHAR8  Text[4096];

  vsnprintf (Text, sizeof Text, Format, List);
  mLine[Line] = strdup (Text);
}

VOID
FillLine (
  UINTN        Line,
  CONST CHAR8  *Format,
  ...
  )
{
  va_list  List;

  va_start (List, Format);
  FillLineV (Line, Format, List);
}

VOID
PrintLine (
  CONST CHAR8  *Format,
  ...
  )
{
  va_list  List;

  va_start (List, Format);
  FillLineV (NextLine (), Format, List);
}

UINTN
ReserveLine (
  CONST CHAR8  *Call
  )
{
  PrintLine ("%s unfinished", Call);
  return mLineCount - 1;
}

VOID
DropLines (
  CONST CHAR8  *Text
  )
{
  UINTN  From;
  UINTN  Kept;

  Kept = 0;
  for (From = 0; From < mLineCount; From++) {
    if (strncmp (mLine[From], Text, strlen (Text)) != 0) {
      mLine[Kept++] = mLine[From];
    }
  }

  mLineCount = Kept;
}

VOID
FlushLines (
  VOID
  )
{
  UINTN  Line;

  for (Line = 0; Line < mLineCount; Line++) {
    puts (mLine[Line]);
  }

  fflush (stdout);
  mLineCount = 0;
}

/** A fault of the processor in a core, or a core without an end: what was printed, and which. **/
static VOID
Crashed (
  int        Signal,
  siginfo_t  *Info,
  VOID       *Context
  )
{
  FlushLines ();
  if (Signal == SIGVTALRM) {
    printf ("no end\n");
  } else {
    printf ("crash signal %d at %p\n", Signal, Info->si_addr);
  }

  fflush (stdout);
  _exit (3);
}

static VOID
CatchCrashes (
  VOID
  )
{
  static CHAR8      Stack[65536];
  static CONST int  Signals[] = { SIGSEGV, SIGBUS, SIGFPE, SIGILL, SIGABRT, SIGVTALRM };
  stack_t           Alternate = { Stack, 0, sizeof Stack };
  struct itimerval  Limit     = { { 0, 0 }, { MOST_SECONDS, 0 } };
  struct sigaction  Action;
  UINTN             Index;

  memset (&Action, 0, sizeof Action);
  Action.sa_sigaction = Crashed;
  Action.sa_flags     = SA_SIGINFO | SA_ONSTACK;
  sigaltstack (&Alternate, NULL);
  for (Index = 0; Index < sizeof Signals / sizeof Signals[0]; Index++) {
    sigaction (Signals[Index], &Action, NULL);
  }

  setitimer (ITIMER_VIRTUAL, &Limit, NULL);
}

/** Maps memory at an address of the plan. **/
static VOID
MapAt (
  UINT64  Base,
  UINT64  Length,
  int     File
  )
{
  int   Flags;
  VOID  *Mapped;

  Flags  = MAP_FIXED_NOREPLACE | MAP_NORESERVE;
  Flags |= File < 0 ? MAP_PRIVATE | MAP_ANONYMOUS : MAP_SHARED;
  Mapped = mmap ((VOID *)Base, Length, PROT_READ | PROT_WRITE, Flags, File, 0);
  if (Mapped != (VOID *)Base) {
    Fail ("no memory can be mapped at 0x%llx", Base);
  }
}

static VOID
MapVolume (
  UINT64       Base,
  CONST CHAR8  *Name
  )
{
  int          File;
  struct stat  State;

  File = open (Name, O_RDONLY);
  if (File < 0 || fstat (File, &State) != 0) {
    Fail ("%s can't be read", Name);
  }

  MapAt (Base & ~(HOST_PAGE - 1), ALIGN_VALUE (State.st_size, VOLUME_GRANULE), -1);
  if (read (File, (VOID *)Base, State.st_size) != State.st_size) {
    Fail ("%s can't be read whole", Name);
  }

  close (File);
  gPlan.Volume[gPlan.VolumeCount].Base     = Base;
  gPlan.Volume[gPlan.VolumeCount++].Length = State.st_size;
}

static VOID
ReadPlanLine (
  CONST CHAR8  *Line
  )
{
  UINT64  First;
  UINT64  Second;
  CHAR8   Name[300];

  if (sscanf (Line, "temp %lli %lli", &First, &Second) == 2) {
    gPlan.Temp = (RANGE){ First, Second };
  } else if (sscanf (Line, "ram %lli %lli", &First, &Second) == 2) {
    gPlan.Ram = (RANGE){ First, Second };
  } else if (sscanf (Line, "fuel %lli", &First) == 1) {
    gPlan.Fuel = First;
  } else if (sscanf (Line, "volume %lli %299s", &First, Name) == 2) {
    MapVolume (First, Name);
  }
}

static VOID
ReadAuditLine (
  CONST CHAR8  *Line
  )
{
  int     Number;
  UINT64  Base;

  if (sscanf (Line, "volume %d %lli", &Number, &Base) == 2 && Number < MOST_VOLUMES) {
    gPlan.CatalogBase[Number] = Base;
    gPlan.CatalogCount        = Number + 1;
  }
}

static VOID
ReadLines (
  CONST CHAR8  *Name,
  VOID         (*ReadLine)(CONST CHAR8 *)
  )
{
  FILE   *File;
  CHAR8  Line[600];

  File = fopen (Name, "r");
  if (File == NULL) {
    Fail ("%s can't be read", Name);
  }

  while (fgets (Line, sizeof Line, File) != NULL) {
    ReadLine (Line);
  }

  fclose (File);
}

/** Gives a volume the attributes without which EDK2's DXE core reads none of it, and its sum
    again. AS_BUILT leaves volumes as they are. **/
static VOID
LetBeRead (
  EFI_FIRMWARE_VOLUME_HEADER  *Header
  )
{
  UINT16  Sum;
  UINTN   Word;

  if ((Header->Attributes & READ_STATUS) != 0) {
    return;
  }

  Header->Attributes |= READ_ATTRIBUTES;
  Header->Checksum    = 0;
  Sum                 = 0;
  for (Word = 0; Word < Header->HeaderLength / sizeof (UINT16); Word++) {
    Sum += ((UINT16 *)Header)[Word];
  }

  Header->Checksum = -Sum;
}

VOID
ReadPlan (
  CONST CHAR8  *Plan,
  CONST CHAR8  *Audit,
  BOOLEAN      IsFirstPhase,
  int          RamFile
  )
{
  UINTN  Number;

  CatchCrashes ();
  ReadLines (Plan, ReadPlanLine);
  ReadLines (Audit, ReadAuditLine);
  if (getenv ("AS_BUILT") == NULL) {
    for (Number = 0; Number < gPlan.CatalogCount; Number++) {
      LetBeRead ((EFI_FIRMWARE_VOLUME_HEADER *)gPlan.CatalogBase[Number]);
    }
  }

  gPlan.RamFile = RamFile;
  if (IsFirstPhase) {
    MapAt (gPlan.Temp.Base, gPlan.Temp.Length, -1);
    gPlan.RamFile = memfd_create ("ram", 0);
    if (ftruncate (gPlan.RamFile, gPlan.Ram.Length) != 0) {
      Fail ("no memory for RAM");
    }
  }

  MapAt (gPlan.Ram.Base, gPlan.Ram.Length, gPlan.RamFile);
}

int
VolumeAt (
  UINT64  Base
  )
{
  UINTN  Number;

  for (Number = 0; Number < gPlan.CatalogCount; Number++) {
    if (gPlan.CatalogBase[Number] == Base) {
      return (int)Number;
    }
  }

  return -1;
}

BOOLEAN
IsInRange (
  RANGE   Range,
  UINT64  Address,
  UINT64  Length
  )
{
  return Address >= Range.Base
         && Length <= Range.Length
         && Address - Range.Base <= Range.Length - Length;
}

BOOLEAN
IsInVolumes (
  UINT64  Address,
  UINT64  Length
  )
{
  UINTN  Index;

  for (Index = 0; Index < gPlan.VolumeCount; Index++) {
    if (IsInRange (gPlan.Volume[Index], Address, Length)) {
      return TRUE;
    }
  }

  return FALSE;
}

UINTN
ModuleOf (
  VOID            *File,
  int             Volume,
  CONST EFI_GUID  *Name
  )
{
  UINTN  Index;

  for (Index = 0; Index < gModuleCount; Index++) {
    if (gModule[Index].File == File) {
      return Index;
    }
  }

  if (gModuleCount == MOST_MODULES) {
    Fail ("more than %d modules", MOST_MODULES);
  }

  gModule[gModuleCount] = (MODULE){ File, Volume, *Name, NULL, 0 };
  return gModuleCount++;
}

CONST CHAR8 *
StatusName (
  EFI_STATUS  Status
  )
{
  static CHAR8  Other[40];

  switch (Status) {
    case EFI_SUCCESS:
      return "Success";
    case EFI_INVALID_PARAMETER:
      return "InvalidParameter";
    case EFI_NOT_FOUND:
      return "NotFound";
    case EFI_OUT_OF_RESOURCES:
      return "OutOfResources";
    case EFI_NOT_AVAILABLE_YET:
      return "NotAvailableYet";
    case EFI_ALREADY_STARTED:
      return "AlreadyStarted";
    case EFI_ACCESS_DENIED:
      return "AccessDenied";
    case EFI_UNSUPPORTED:
      return "Unsupported";
    case EFI_VOLUME_CORRUPTED:
      return "VolumeCorrupted";
    default:
      sprintf (Other, "Status%llx", Status);
      return Other;
  }
}

CONST CHAR8 *
ScriptStatusName (
  UINT8  Code
  )
{
  static CONST CHAR8  *Names[] = {
    "Success",         "InvalidParameter", "NotFound",    "OutOfResources",
    "NotAvailableYet", "AlreadyStarted",   "AccessDenied"
  };

  return Names[Code];
}

CONST CHAR8 *
GuidText (
  CONST EFI_GUID  *Guid
  )
{
  // A line has at most three.
  static CHAR8     Texts[4][40];
  static UINTN     Turn;
  CHAR8            *Text;
  CONST UINT8      *Tail;

  Text = Texts[Turn++ % 4];
  Tail = Guid->Data4;
  sprintf (
    Text,
    "%08x-%04x-%04x-%02x%02x-%02x%02x%02x%02x%02x%02x",
    Guid->Data1, Guid->Data2, Guid->Data3,
    Tail[0], Tail[1], Tail[2], Tail[3], Tail[4], Tail[5], Tail[6], Tail[7]
    );
  return Text;
}

CONST CHAR8 *
HexText (
  CONST UINT8  *Bytes,
  UINTN        Length
  )
{
  static CHAR8  Text[4000];
  UINTN         Index;

  Text[0] = 0;
  for (Index = 0; Index < Length && 2 * Index + 2 < sizeof Text; Index++) {
    sprintf (Text + 2 * Index, "%02x", Bytes[Index]);
  }

  return Text;
}

VOID
TakeFuel (
  VOID
  )
{
  if (gPlan.Fuel == 0) {
    FinishBoot ("Spent");
  }

  gPlan.Fuel--;
}

VOID
EnterFrame (
  VOID
  )
{
  gFrames++;
  if (gFrames > MOST_FRAMES) {
    FinishBoot ("Deep");
  }
}
