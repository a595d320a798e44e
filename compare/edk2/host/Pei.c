/** @file
  EDK2's whole PEI core over a plan's volumes. PeiLoadImage, weakened in its object, answers the
  interpreter below as the entry of every module; all else is EDK2's own.

  usage: edk2-pei PLAN AUDIT [EDK2-DXE], with AUDIT what `piboot audit PLAN` prints
**/
#include "PeiMain.h"
#include "Host.h"

#define MOST_NOTIFICATIONS  65536
#define MOST_COPIES         65536
#define ENTRY_LENGTH        32
#define MAKER_UNKNOWN       -2
#define MAKER_CORE          -1
#define FIRST_PAGE          4096
#define MOST_HOB_TEXT       1900

/// A block of a module's script that notifications run.
typedef struct {
  UINTN    Module;
  UINTN    Block;
} NOTIFIED_BLOCK;

/// A descriptor of a list, and the one in a register that it was copied from.
typedef struct {
  UINT64    From;
  UINT64    To;
} COPIED_DESCRIPTOR;

/// A script that runs.
typedef struct {
  UINTN                  Module;
  EFI_PEI_FILE_HANDLE    File;
  CONST UINT8            *Action;
  REGISTER               Register[REGISTERS];
  EFI_STATUS             Last;
} FRAME;

static CONST EFI_PEI_SERVICES  **mServices;
static UINTN                   mReported;
static BOOLEAN                 mHasMoved;
static NOTIFIED_BLOCK          mNotified[MOST_NOTIFICATIONS];
static UINTN                   mNotifiedCount;
static UINT8                   *mEntries;
static int                     mMaker[65536];
static COPIED_DESCRIPTOR       mCopied[MOST_COPIES];
static UINTN                   mCopiedCount;
static CHAR8                   **mWords;
static CHAR8                   *mDxeProgram;

//
// What the core is linked with.
//
CONST EFI_PEI_SERVICES **EFIAPI GetPeiServicesTablePointer (VOID) { return mServices; }
VOID EFIAPI MigratePeiServicesTablePointer (VOID) { }

VOID EFIAPI
SetPeiServicesTablePointer (
  CONST EFI_PEI_SERVICES  **Services
  )
{
  mServices = Services;
}

VOID EFIAPI
ProcessLibraryConstructorList (
  EFI_PEI_FILE_HANDLE     File,
  CONST EFI_PEI_SERVICES  **Services
  )
{
}

VOID EFIAPI
_ModuleEntryPoint (
  CONST EFI_SEC_PEI_HAND_OFF    *SecCoreData,
  CONST EFI_PEI_PPI_DESCRIPTOR  *PpiList
  )
{
}

VOID EFIAPI
SwitchStack (
  SWITCH_STACK_ENTRY_POINT  EntryPoint,
  VOID                      *Context1,
  VOID                      *Context2,
  VOID                      *NewStack,
  ...
  )
{
  PrintLine ("migrate");
  mHasMoved = TRUE;
  EntryPoint (Context1, Context2);
}

static PEI_CORE_INSTANCE *
Core (
  VOID
  )
{
  return PEI_CORE_INSTANCE_FROM_PS_THIS (mServices);
}

/** Tells of the volumes that the core has met since. **/
static VOID
PrintReports (
  VOID
  )
{
  for ( ; mReported < Core ()->FvCount; mReported++) {
    PrintLine ("report %d", VolumeAt ((UINTN)Core ()->Fv[mReported].FvHandle));
  }
}

/** What the core itself locates. It asks for the DXE IPL where PEI stops, and calls through no
    number that a script installed. **/
EFI_STATUS EFIAPI
HostLocatePpi (
  CONST EFI_GUID          *Guid,
  UINTN                   Instance,
  EFI_PEI_PPI_DESCRIPTOR  **Descriptor,
  VOID                    **Ppi
  )
{
  EFI_STATUS  Status;

  if (CompareGuid (Guid, &gEfiDxeIplPpiGuid)) {
    FinishBoot (NULL);
  }

  Status = PeiLocatePpi (mServices, Guid, Instance, Descriptor, Ppi);
  return !EFI_ERROR (Status) && Ppi != NULL && (UINTN)*Ppi < FIRST_PAGE ? EFI_NOT_FOUND : Status;
}

/** What the core itself installs. **/
EFI_STATUS EFIAPI
HostInstallPpi (
  CONST EFI_PEI_PPI_DESCRIPTOR  *Descriptor
  )
{
  UINTN       Line;
  EFI_STATUS  Status;

  mMaker[Core ()->PpiData.PpiList.CurrentCount] = MAKER_CORE;

  Line   = ReserveLine ("core install");
  Status = PeiInstallPpi (mServices, Descriptor);
  FillLine (Line, "core install %s", StatusName (Status));
  return Status;
}

static CONST UINT8 *
FindScript (
  EFI_PEI_FILE_HANDLE  File
  )
{
  UINTN       Instance;
  UINT8       *Section;
  UINT32      Authentication;
  EFI_STATUS  Status;

  for (Instance = 0; ; Instance++) {
    Status = PeiFfsFindSectionData3 (
               mServices,
               EFI_SECTION_RAW,
               Instance,
               File,
               (VOID **)&Section,
               &Authentication
               );
    if (EFI_ERROR (Status)) {
      return NULL;
    }

    if (IsScript (Section, SCRIPT_HEADER_LENGTH, SCRIPT_PHASE_PEI)) {
      return Section;
    }
  }
}

/** Whether a script may read there. **/
static BOOLEAN
IsMapped (
  UINT64  Address,
  UINT64  Length
  )
{
  return IsInVolumes (Address, Length)
         || (!mHasMoved && IsInRange (gPlan.Temp, Address, Length))
         || IsInRange (gPlan.Ram, Address, Length);
}

//
// Notifications. EDK2 calls the address in a descriptor, so each block that is notified gets an
// entry that knows its number.
//
static EFI_STATUS
RunNotified (
  EFI_PEI_SERVICES           **Services,
  EFI_PEI_NOTIFY_DESCRIPTOR  *Notification,
  VOID                       *Ppi,
  UINT64                     Number
  );

/** Writes `mov ecx, Number; mov rax, RunNotified; jmp rax`: the number is the fourth argument. **/
static VOID
WriteEntry (
  UINT8   *Entry,
  UINT32  Number
  )
{
  UINT64  Target;

  Target   = (UINTN)RunNotified;
  Entry[0] = 0xB9;
  memcpy (Entry + 1, &Number, sizeof Number);
  Entry[5] = 0x48;
  Entry[6] = 0xB8;
  memcpy (Entry + 7, &Target, sizeof Target);
  Entry[15] = 0xFF;
  Entry[16] = 0xE0;
}

static VOID *
EntryOf (
  UINTN  Module,
  UINTN  Block
  )
{
  UINTN  Number;

  if (mEntries == NULL) {
    mEntries = mmap (
                 NULL,
                 MOST_NOTIFICATIONS * ENTRY_LENGTH,
                 PROT_READ | PROT_WRITE | PROT_EXEC,
                 MAP_PRIVATE | MAP_ANONYMOUS,
                 -1,
                 0
                 );
  }

  for (Number = 0; Number < mNotifiedCount; Number++) {
    if (mNotified[Number].Module == Module && mNotified[Number].Block == Block) {
      return mEntries + ENTRY_LENGTH * Number;
    }
  }

  mNotified[mNotifiedCount] = (NOTIFIED_BLOCK){ Module, Block };
  WriteEntry (mEntries + ENTRY_LENGTH * mNotifiedCount, (UINT32)mNotifiedCount);
  return mEntries + ENTRY_LENGTH * mNotifiedCount++;
}

//
// The actions of a script, in the order of their codes.
//
static VOID
EndCall (
  FRAME        *Frame,
  CONST CHAR8  *Name,
  EFI_STATUS   Status
  )
{
  Frame->Last = Status;
  PrintReports ();
  PrintLine ("call %s %s", Name, StatusName (Status));
}

static VOID
Add (
  FRAME  *Frame
  )
{
  REGISTER  *Register;

  Register = &Frame->Register[Frame->Action[1]];
  if (Register->Kind != RegisterNumber) {
    Frame->Last = EFI_INVALID_PARAMETER;
    return;
  }

  Register->Value += ReadNumber (Frame->Action + 2, 8);
  Frame->Last      = EFI_SUCCESS;
}

static VOID
Pool (
  FRAME  *Frame
  )
{
  UINTN       Length;
  VOID        *Body;
  EFI_STATUS  Status;

  Length = ReadNumber (Frame->Action + 2, 4);
  Status = PeiAllocatePool (mServices, Length, &Body);
  if (!EFI_ERROR (Status)) {
    memset (Body, 0, Length);
    Frame->Register[Frame->Action[1]] = (REGISTER){ RegisterPool, (UINTN)Body, Length };
  }

  EndCall (Frame, "pool", Status);
}

static VOID
Store (
  FRAME  *Frame
  )
{
  REGISTER    *Register;
  UINT64      Offset;
  EFI_STATUS  Status;

  Register = &Frame->Register[Frame->Action[1]];
  Offset   = ReadNumber (Frame->Action + 2, 4);
  Status   = EFI_INVALID_PARAMETER;
  if (Register->Kind == RegisterPool && Offset + Frame->Action[6] <= Register->Length) {
    memcpy ((UINT8 *)Register->Value + Offset, Frame->Action + 7, Frame->Action[6]);
    Status = EFI_SUCCESS;
  }

  EndCall (Frame, "store", Status);
}

static VOID
Addr (
  FRAME  *Frame
  )
{
  REGISTER  *Of;

  Of = &Frame->Register[Frame->Action[2]];
  if (Of->Kind != RegisterPool && Of->Kind != RegisterDescriptor) {
    Frame->Last = EFI_INVALID_PARAMETER;
    return;
  }

  Frame->Last                       = EFI_SUCCESS;
  Frame->Register[Frame->Action[1]] = (REGISTER){
    RegisterNumber, Of->Value + ReadNumber (Frame->Action + 3, 4), 0
  };
}

static VOID
Peek (
  FRAME  *Frame
  )
{
  REGISTER  *Address;
  UINTN     Length;

  Address = &Frame->Register[Frame->Action[1]];
  Length  = Frame->Action[2];
  if (Address->Kind != RegisterNumber) {
    EndCall (Frame, "peek", EFI_INVALID_PARAMETER);
  } else if (!IsMapped (Address->Value, Length)) {
    EndCall (Frame, "peek", EFI_NOT_FOUND);
  } else {
    Frame->Last = EFI_SUCCESS;
    PrintReports ();
    PrintLine ("call peek Success %s", HexText ((UINT8 *)Address->Value, Length));
  }
}

/** Where a descriptor's GUID stands in a volume; 0 where it stands in the script. **/
static EFI_STATUS
GuidInVolume (
  FRAME   *Frame,
  UINT64  *Address
  )
{
  REGISTER  *Register;

  *Address = 0;
  if (Frame->Action[3] == 0) {
    return EFI_SUCCESS;
  }

  Register = &Frame->Register[Frame->Action[4]];
  if (Register->Kind != RegisterNumber || !IsInVolumes (Register->Value, sizeof (EFI_GUID))) {
    return EFI_INVALID_PARAMETER;
  }

  *Address = Register->Value;
  return EFI_SUCCESS;
}

static VOID
Desc (
  FRAME  *Frame
  )
{
  static CONST UINTN      Flags[] = {
    EFI_PEI_PPI_DESCRIPTOR_PPI,
    EFI_PEI_PPI_DESCRIPTOR_NOTIFY_CALLBACK,
    EFI_PEI_PPI_DESCRIPTOR_NOTIFY_DISPATCH
  };
  UINT8                   Kind;
  UINT8                   Argument;
  UINT64                  Guid;
  EFI_PEI_PPI_DESCRIPTOR  *Descriptor;
  EFI_STATUS              Status;

  Kind     = Frame->Action[2];
  Argument = Frame->Action[ActionLength (Frame->Action) - 1];
  Status   = GuidInVolume (Frame, &Guid);
  if (Kind == 0 && Frame->Register[Argument].Kind != RegisterNumber) {
    Status = EFI_INVALID_PARAMETER;
  }

  if (!EFI_ERROR (Status)) {
    Status = PeiAllocatePool (
               mServices,
               sizeof *Descriptor + (Guid != 0 ? 0 : sizeof (EFI_GUID)),
               (VOID **)&Descriptor
               );
  }

  if (!EFI_ERROR (Status)) {
    Descriptor->Flags = EFI_PEI_PPI_DESCRIPTOR_TERMINATE_LIST | Flags[Kind];
    Descriptor->Guid  = (EFI_GUID *)Guid;
    if (Guid == 0) {
      Descriptor->Guid = (EFI_GUID *)(Descriptor + 1);
      CopyGuid (Descriptor->Guid, (CONST EFI_GUID *)(Frame->Action + 4));
    }

    if (Kind == 0) {
      Descriptor->Ppi = (VOID *)Frame->Register[Argument].Value;
    } else {
      Descriptor->Ppi = EntryOf (Frame->Module, Argument);
    }

    Frame->Register[Frame->Action[1]] = (REGISTER){ RegisterDescriptor, (UINTN)Descriptor, 0 };
  }

  EndCall (Frame, "desc", Status);
}

/** The descriptors of an action's list: the one itself, or copies of several in a row. **/
static EFI_STATUS
DescriptorsOf (
  FRAME                   *Frame,
  EFI_PEI_PPI_DESCRIPTOR  **List
  )
{
  UINTN       Count;
  UINTN       Index;
  REGISTER    *Register;
  EFI_STATUS  Status;

  Count = Frame->Action[1];
  for (Index = 0; Index < Count; Index++) {
    if (Frame->Register[Frame->Action[2 + Index]].Kind != RegisterDescriptor) {
      return EFI_INVALID_PARAMETER;
    }
  }

  *List = (EFI_PEI_PPI_DESCRIPTOR *)Frame->Register[Frame->Action[2]].Value;
  if (Count == 1) {
    return EFI_SUCCESS;
  }

  Status = PeiAllocatePool (mServices, Count * sizeof **List, (VOID **)List);
  if (EFI_ERROR (Status)) {
    return Status;
  }

  for (Index = 0; Index < Count; Index++) {
    Register       = &Frame->Register[Frame->Action[2 + Index]];
    (*List)[Index] = *(EFI_PEI_PPI_DESCRIPTOR *)Register->Value;
    if (Index < Count - 1) {
      (*List)[Index].Flags &= ~(UINTN)EFI_PEI_PPI_DESCRIPTOR_TERMINATE_LIST;
    }

    mCopied[mCopiedCount++] = (COPIED_DESCRIPTOR){ Register->Value, (UINTN)&(*List)[Index] };
  }

  return EFI_SUCCESS;
}

/** Ends a call whose notifications print behind its line. **/
static VOID
EndCallAt (
  FRAME        *Frame,
  UINTN        Line,
  CONST CHAR8  *Name,
  EFI_STATUS   Status
  )
{
  Frame->Last = Status;
  FillLine (Line, "call %s %s", Name, StatusName (Status));
  PrintReports ();
}

static VOID
Install (
  FRAME  *Frame
  )
{
  EFI_PEI_PPI_DESCRIPTOR  *List;
  EFI_STATUS              Status;
  UINTN                   First;
  UINTN                   Index;
  UINTN                   Line;

  First  = Core ()->PpiData.PpiList.CurrentCount;
  Status = DescriptorsOf (Frame, &List);
  Line   = ReserveLine ("call install");
  if (!EFI_ERROR (Status)) {
    for (Index = 0; Index < Frame->Action[1]; Index++) {
      mMaker[First + Index] = (int)Frame->Module;
    }

    Status = PeiInstallPpi (mServices, List);
  }

  EndCallAt (Frame, Line, "install", Status);
}

/** The descriptor in the core's list that a register's stands for: itself, or a list's copy. **/
static UINT64
InstalledFor (
  UINT64  Descriptor
  )
{
  PEI_PPI_LIST  *List;
  UINTN         Index;
  UINTN         Copy;
  UINT64        Installed;

  List = &Core ()->PpiData.PpiList;
  for (Index = 0; Index < List->CurrentCount; Index++) {
    Installed = (UINTN)List->PpiPtrs[Index].Ppi;
    if (Installed == Descriptor) {
      return Descriptor;
    }

    for (Copy = 0; Copy < mCopiedCount; Copy++) {
      if (mCopied[Copy].From == Descriptor && mCopied[Copy].To == Installed) {
        return Installed;
      }
    }
  }

  return Descriptor;
}

static VOID
Reinstall (
  FRAME  *Frame
  )
{
  REGISTER    *Old;
  REGISTER    *New;
  EFI_STATUS  Status;
  UINTN       Line;

  Old    = &Frame->Register[Frame->Action[1]];
  New    = &Frame->Register[Frame->Action[2]];
  Status = EFI_INVALID_PARAMETER;
  Line   = ReserveLine ("call reinstall");
  if (Old->Kind == RegisterDescriptor && New->Kind == RegisterDescriptor) {
    Status = PeiReInstallPpi (
               mServices,
               (EFI_PEI_PPI_DESCRIPTOR *)InstalledFor (Old->Value),
               (EFI_PEI_PPI_DESCRIPTOR *)New->Value
               );
  }

  EndCallAt (Frame, Line, "reinstall", Status);
}

static VOID
Notify (
  FRAME  *Frame
  )
{
  EFI_PEI_PPI_DESCRIPTOR  *List;
  EFI_STATUS              Status;
  UINTN                   Line;

  Status = DescriptorsOf (Frame, &List);
  Line   = ReserveLine ("call notify");
  if (!EFI_ERROR (Status)) {
    Status = PeiNotifyPpi (mServices, (EFI_PEI_NOTIFY_DESCRIPTOR *)List);
  }

  EndCallAt (Frame, Line, "notify", Status);
}

static VOID
Locate (
  FRAME  *Frame
  )
{
  EFI_PEI_PPI_DESCRIPTOR  *Descriptor;
  VOID                    *Ppi;
  EFI_STATUS              Status;

  Status = PeiLocatePpi (
             mServices,
             (CONST EFI_GUID *)(Frame->Action + 3),
             ReadNumber (Frame->Action + 19, 2),
             &Descriptor,
             &Ppi
             );
  if (EFI_ERROR (Status)) {
    EndCall (Frame, "locate", Status);
    return;
  }

  Frame->Register[Frame->Action[1]] = (REGISTER){ RegisterDescriptor, (UINTN)Descriptor, 0 };
  Frame->Register[Frame->Action[2]] = (REGISTER){ RegisterNumber, (UINTN)Ppi, 0 };
  Frame->Last                       = EFI_SUCCESS;
  PrintReports ();
  PrintLine ("call locate Success 0x%llx", (UINT64)(UINTN)Ppi);
}

static VOID
Hob (
  FRAME  *Frame
  )
{
  UINT8                   Type;
  UINTN                   Length;
  EFI_HOB_GENERIC_HEADER  *Made;
  EFI_STATUS              Status;

  Type   = Frame->Action[1];
  Length = ReadNumber (Frame->Action + 2, 2);
  Status = PeiCreateHob (mServices, Type, sizeof *Made + Length, (VOID **)&Made);
  if (!EFI_ERROR (Status)) {
    memset (Made + 1, 0, Made->HobLength - sizeof *Made);
    // A CPU HOB has two sizes, and six bytes that are reserved.
    memcpy (Made + 1, Frame->Action + 4, Type == EFI_HOB_TYPE_CPU ? 2 : Length);
  }

  EndCall (Frame, "hob", Status);
}

static VOID
Memory (
  FRAME  *Frame
  )
{
  REGISTER    *Begin;
  REGISTER    *Length;
  EFI_STATUS  Status;

  Begin  = &Frame->Register[Frame->Action[1]];
  Length = &Frame->Register[Frame->Action[2]];
  Status = EFI_INVALID_PARAMETER;
  if (Begin->Kind == RegisterNumber && Length->Kind == RegisterNumber) {
    Status = PeiInstallPeiMemory (mServices, Begin->Value, Length->Value);
  }

  EndCall (Frame, "memory", Status);
}

static VOID
Pages (
  FRAME  *Frame
  )
{
  EFI_PHYSICAL_ADDRESS  Address;
  UINTN                 Count;
  EFI_STATUS            Status;

  Address = 0;
  Count   = ReadNumber (Frame->Action + 3, 4);
  Status  = PeiAllocatePages (mServices, Frame->Action[2], Count, &Address);
  if (!EFI_ERROR (Status)) {
    Frame->Register[Frame->Action[1]] = (REGISTER){ RegisterNumber, Address, 0 };
  }

  EndCall (Frame, "pages", Status);
}

static VOID
BootMode (
  FRAME  *Frame
  )
{
  REGISTER       *Register;
  EFI_BOOT_MODE  Mode;

  Register = &Frame->Register[Frame->Action[2]];
  if (Frame->Action[1] == 0) {
    Frame->Last = PeiGetBootMode (mServices, &Mode);
    *Register   = (REGISTER){ RegisterNumber, Mode, 0 };
    PrintLine ("call boot_mode %s 0x%llx", StatusName (Frame->Last), (UINT64)Mode);
  } else if (Register->Kind != RegisterNumber || Register->Value > MAX_UINT32) {
    EndCall (Frame, "boot_mode", EFI_INVALID_PARAMETER);
  } else {
    EndCall (Frame, "boot_mode", PeiSetBootMode (mServices, Register->Value));
  }
}

/** Does an action. FALSE where it ended the script. **/
static BOOLEAN
DoAction (
  FRAME  *Frame
  )
{
  CONST UINT8  *Action;

  Action = Frame->Action;
  switch (*Action) {
    case ActionSet:
      Frame->Register[Action[1]] = (REGISTER){ RegisterNumber, ReadNumber (Action + 2, 8), 0 };
      Frame->Last                = EFI_SUCCESS;
      break;
    case ActionAdd:
      Add (Frame);
      break;
    case ActionPool:
      Pool (Frame);
      break;
    case ActionStore:
      Store (Frame);
      break;
    case ActionAddr:
      Addr (Frame);
      break;
    case ActionPeek:
      Peek (Frame);
      break;
    case ActionDesc:
      Desc (Frame);
      break;
    case ActionInstall:
      Install (Frame);
      break;
    case ActionReinstall:
      Reinstall (Frame);
      break;
    case ActionNotify:
      Notify (Frame);
      break;
    case ActionLocate:
      Locate (Frame);
      break;
    case ActionHob:
      Hob (Frame);
      break;
    case ActionMemory:
      Memory (Frame);
      break;
    case ActionPages:
      Pages (Frame);
      break;
    case ActionBootMode:
      BootMode (Frame);
      break;
    case ActionLog:
      PrintReports ();
      PrintLine ("log %.*s", Action[1], Action + 2);
      break;
    case ActionSkipIf:
      if ((Frame->Last == EFI_SUCCESS) == (Action[1] == 0)) {
        Frame->Action = SkipActions (Action, Action[2]);
      }

      break;
    case ActionRet:
      PrintReports ();
      PrintLine ("end %s", ScriptStatusName (Action[1]));
      return FALSE;
    case ActionShadow:
      EndCall (Frame, "shadow", PeiRegisterForShadow (Frame->File));
      break;
    default:
      Fail ("no action of PEI has the code %x", *Action);
  }

  Frame->Action = SkipActions (Frame->Action, 1);
  return TRUE;
}

static VOID
RunScript (
  FRAME  *Frame,
  UINTN  Block
  )
{
  if (gModule[Frame->Module].Script == NULL) {
    PrintLine ("end Success");
  } else {
    Frame->Action = FirstAction (gModule[Frame->Module].Script, Block);
    do {
      TakeFuel ();
    } while (DoAction (Frame));
  }

  gFrames--;
}

/** The descriptor of the PPI that a notification is told of, which EDK2 hands over without it. **/
static UINT64
DescriptorOfPpi (
  CONST EFI_GUID  *Guid,
  VOID            *Ppi
  )
{
  PEI_PPI_LIST            *List;
  EFI_PEI_PPI_DESCRIPTOR  *Descriptor;
  UINTN                   Index;

  List = &Core ()->PpiData.PpiList;
  for (Index = 0; Index < List->CurrentCount; Index++) {
    Descriptor = List->PpiPtrs[Index].Ppi;
    if (CompareGuid (Descriptor->Guid, Guid) && Descriptor->Ppi == Ppi) {
      return (UINTN)Descriptor;
    }
  }

  return 0;
}

static EFI_STATUS
RunNotified (
  EFI_PEI_SERVICES           **Services,
  EFI_PEI_NOTIFY_DESCRIPTOR  *Notification,
  VOID                       *Ppi,
  UINT64                     Number
  )
{
  NOTIFIED_BLOCK  *Block;
  MODULE          *Module;
  UINT64          Descriptor;
  FRAME           Frame;

  Block      = &mNotified[(UINT32)Number];
  Module     = &gModule[Block->Module];
  Descriptor = DescriptorOfPpi (Notification->Guid, Ppi);
  EnterFrame ();
  PrintReports ();
  PrintLine (
    "notify %s %d %s %s",
    (Notification->Flags & EFI_PEI_PPI_DESCRIPTOR_NOTIFY_CALLBACK) != 0 ? "callback" : "dispatch",
    Module->Volume,
    GuidText (&Module->Name),
    GuidText (Notification->Guid)
    );
  Frame             = (FRAME){ .Module = Block->Module, .File = Module->File };
  Frame.Register[0] = (REGISTER){ RegisterNumber, (UINTN)Ppi, 0 };
  Frame.Register[1] = (REGISTER){ RegisterDescriptor, Descriptor, 0 };
  RunScript (&Frame, Block->Block);
  return EFI_SUCCESS;
}

static CONST CHAR8 *
LicenceOf (
  MODULE               *Module,
  EFI_PEI_FILE_HANDLE  File
  )
{
  VOID        *Expression;
  EFI_STATUS  Status;

  if (Module->Starts++ != 0) {
    return "shadow";
  }

  if (Core ()->CurrentPeimCount < Core ()->AprioriCount) {
    return "apriori";
  }

  Status = PeiServicesFfsFindSectionData (EFI_SECTION_PEI_DEPEX, File, &Expression);
  return EFI_ERROR (Status) ? "absent" : "true";
}

/** The entry of every module. **/
static EFI_STATUS EFIAPI
StartModule (
  EFI_PEI_FILE_HANDLE     File,
  CONST EFI_PEI_SERVICES  **Services
  )
{
  EFI_PEI_FV_HANDLE  Volume;
  UINTN              Number;
  MODULE             *Module;
  CONST CHAR8        *Licence;
  FRAME              Frame;

  PrintReports ();
  Volume         = Core ()->Fv[Core ()->CurrentPeimFvCount].FvHandle;
  Number         = ModuleOf (File, VolumeAt ((UINTN)Volume), (CONST EFI_GUID *)File);
  Module         = &gModule[Number];
  Licence        = LicenceOf (Module, File);
  Module->Script = FindScript (File);
  EnterFrame ();
  PrintLine ("pei start %d %s %s", Module->Volume, GuidText (&Module->Name), Licence);
  Frame = (FRAME){ .Module = Number, .File = File };
  RunScript (&Frame, 0);
  return EFI_SUCCESS;
}

EFI_STATUS
PeiLoadImage (
  CONST EFI_PEI_SERVICES  **Services,
  EFI_PEI_FILE_HANDLE     File,
  UINT8                   PeimState,
  EFI_PHYSICAL_ADDRESS    *EntryPoint,
  UINT32                  *Authentication
  )
{
  *EntryPoint     = (UINTN)StartModule;
  *Authentication = 0;
  return EFI_SUCCESS;
}

//
// The end of PEI.
//
static VOID
PrintPpis (
  VOID
  )
{
  PEI_PPI_LIST            *List;
  EFI_PEI_PPI_DESCRIPTOR  *Descriptor;
  UINTN                   Index;

  List = &Core ()->PpiData.PpiList;
  for (Index = 0; Index < List->CurrentCount; Index++) {
    Descriptor = List->PpiPtrs[Index].Ppi;
    if (mMaker[Index] == MAKER_CORE) {
      PrintLine ("ppi core %s 0x0", GuidText (Descriptor->Guid));
    } else if (mMaker[Index] >= 0) {
      PrintLine (
        "ppi %d:%s %s 0x%llx",
        gModule[mMaker[Index]].Volume,
        GuidText (&gModule[mMaker[Index]].Name),
        GuidText (Descriptor->Guid),
        (UINT64)(UINTN)Descriptor->Ppi
        );
    }
  }
}

/** A notification of a script; the core's own are passed over. **/
static VOID
PrintNotification (
  CONST CHAR8                *Kind,
  EFI_PEI_NOTIFY_DESCRIPTOR  *Notification
  )
{
  UINT8           *Entry;
  NOTIFIED_BLOCK  *Block;

  Entry = (UINT8 *)(UINTN)Notification->Notify;
  if (mEntries == NULL || Entry < mEntries || Entry >= mEntries + ENTRY_LENGTH * mNotifiedCount) {
    return;
  }

  Block = &mNotified[(Entry - mEntries) / ENTRY_LENGTH];
  PrintLine (
    "%s %s %d:%s %d",
    Kind,
    GuidText (Notification->Guid),
    gModule[Block->Module].Volume,
    GuidText (&gModule[Block->Module].Name),
    (int)Block->Block
    );
}

static VOID
PrintNotifications (
  VOID
  )
{
  PEI_PPI_DATABASE  *Data;
  UINTN             Index;

  Data = &Core ()->PpiData;
  for (Index = 0; Index < Data->CallbackNotifyList.CurrentCount; Index++) {
    PrintNotification ("callback", Data->CallbackNotifyList.NotifyPtrs[Index].Notify);
  }

  for (Index = 0; Index < Data->DispatchNotifyList.CurrentCount; Index++) {
    PrintNotification ("dispatch", Data->DispatchNotifyList.NotifyPtrs[Index].Notify);
  }
}

/** The HOBs that scripts and pages make; EDK2's core takes pools and modules for itself. **/
static VOID
PrintHobs (
  VOID
  )
{
  EFI_PEI_HOB_POINTERS  Hob;
  UINT16                Type;
  UINTN                 Length;

  for (Hob.Raw = Core ()->HobList.Raw; !END_OF_HOB_LIST (Hob); Hob.Raw = GET_NEXT_HOB (Hob)) {
    Type   = Hob.Header->HobType;
    Length = MIN (Hob.Header->HobLength, MOST_HOB_TEXT) - sizeof (EFI_HOB_GENERIC_HEADER);
    if ((Type == EFI_HOB_TYPE_MEMORY_ALLOCATION
         && IsZeroGuid (&Hob.MemoryAllocation->AllocDescriptor.Name))
        || (Type >= EFI_HOB_TYPE_RESOURCE_DESCRIPTOR && Type <= EFI_HOB_TYPE_CPU)
        || Type == EFI_HOB_TYPE_FV2) {
      PrintLine ("hob %d %s", Type, HexText (Hob.Raw + sizeof (EFI_HOB_GENERIC_HEADER), Length));
    }
  }
}

static VOID
PrintLists (
  VOID
  )
{
  PrintPpis ();
  PrintNotifications ();
  PrintHobs ();
}

/** Tells of a PEIM that waits for its start, or for its second one. **/
static VOID
PrintIfWaiting (
  PEI_CORE_FV_HANDLE  *Volume,
  UINTN               Index
  )
{
  UINT8  State;

  State = Volume->PeimState[Index];
  if (Volume->FvFileHandles[Index] == NULL) {
    return;
  }

  if (State == PEIM_STATE_NOT_DISPATCHED || State == PEIM_STATE_REGISTER_FOR_SHADOW) {
    PrintLine (
      "waiting %d %s %s",
      VolumeAt ((UINTN)Volume->FvHandle),
      GuidText ((EFI_GUID *)Volume->FvFileHandles[Index]),
      State == PEIM_STATE_NOT_DISPATCHED ? "unmet" : "shadow"
      );
  }
}

static VOID
PrintWaiting (
  VOID
  )
{
  UINTN  Number;
  UINTN  Index;

  for (Number = 0; Number < Core ()->FvCount; Number++) {
    for (Index = 0; Index < Core ()->Fv[Number].PeimCount; Index++) {
      PrintIfWaiting (&Core ()->Fv[Number], Index);
    }
  }
}

static CONST CHAR8 *
ResultOfStop (
  VOID
  )
{
  VOID        *Ppi;
  EFI_STATUS  Status;

  if (!Core ()->PeiMemoryInstalled) {
    return "NoMemory";
  }

  Status = PeiLocatePpi (mServices, &gEfiDxeIplPpiGuid, 0, NULL, &Ppi);
  return EFI_ERROR (Status) ? "NoIpl" : "Handoff";
}

/** Hands RAM, the HOB list and the fuel that is left to the DXE host, which takes over. **/
static VOID
HandOff (
  VOID
  )
{
  CHAR8  RamFile[20];
  CHAR8  HobList[40];
  CHAR8  Fuel[40];

  sprintf (RamFile, "%d", gPlan.RamFile);
  sprintf (HobList, "0x%llx", (UINT64)(UINTN)Core ()->HobList.Raw);
  sprintf (Fuel, "%llu", gPlan.Fuel);
  execl (mDxeProgram, mDxeProgram, mWords[1], mWords[2], RamFile, HobList, Fuel, (CHAR8 *)NULL);
  Fail ("%s can't be run", mDxeProgram);
}

VOID
FinishBoot (
  CONST CHAR8  *Result
  )
{
  PrintReports ();
  if (Result == NULL) {
    // The core asserts that there is a DXE IPL where PEI stops.
    DropLines ("assert PeiMain.c");
    PrintLine ("pei stop");
    PrintWaiting ();
    Result = ResultOfStop ();
  }

  if (strcmp (Result, "Handoff") == 0 && mDxeProgram != NULL) {
    PrintLine ("handoff");
    PrintLists ();
    FlushLines ();
    HandOff ();
  }

  PrintLists ();
  PrintLine ("result %s", Result);
  FlushLines ();
  exit (0);
}

int
main (
  int    Count,
  CHAR8  **Words
  )
{
  EFI_SEC_PEI_HAND_OFF  SecCoreData;
  UINTN                 Index;

  if (Count < 3) {
    Fail ("usage: edk2-pei PLAN AUDIT [EDK2-DXE]");
  }

  mWords      = Words;
  mDxeProgram = Count > 3 ? Words[3] : NULL;
  for (Index = 0; Index < ARRAY_SIZE (mMaker); Index++) {
    mMaker[Index] = MAKER_UNKNOWN;
  }

  ReadPlan (Words[1], Words[2], TRUE, -1);
  SecCoreData = (EFI_SEC_PEI_HAND_OFF){
    .DataSize               = sizeof SecCoreData,
    .BootFirmwareVolumeBase = (VOID *)gPlan.Volume[0].Base,
    .BootFirmwareVolumeSize = gPlan.Volume[0].Length,
    .TemporaryRamBase       = (VOID *)gPlan.Temp.Base,
    .TemporaryRamSize       = gPlan.Temp.Length,
    .PeiTemporaryRamBase    = (VOID *)gPlan.Temp.Base,
    .PeiTemporaryRamSize    = gPlan.Temp.Length,
    .StackBase              = (VOID *)(gPlan.Temp.Base + gPlan.Temp.Length),
    .StackSize              = 0,
  };
  PeiCore (&SecCoreData, NULL, NULL);
  return 2;
}
