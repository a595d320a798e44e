/** @file
  EDK2's DXE handle database, events, dispatcher, volume drivers and section reader over the HOB
  list that the PEI host left. CoreLoadImage and CoreStartImage are the interpreter below.

  usage: edk2-dxe PLAN AUDIT RAM-FILE HOB-LIST FUEL
**/
#include "DxeMain.h"
#include "Handle.h"
#include "Event.h"
#include "Host.h"

#define MOST_HANDLES  65536

/// A script that runs.
typedef struct {
  UINTN          Module;
  CONST UINT8    *Action;
  REGISTER       Register[REGISTERS];
  EFI_STATUS     Last;
} FRAME;

/// A notification that a script registered.
typedef struct {
  UINTN       Module;
  UINTN       Block;
  EFI_GUID    Protocol;
  VOID        *Registration;
} NOTIFICATION;

//
// The core's own variables, which its entry would set.
//
EFI_BDS_ARCH_PROTOCOL             *gBds;
EFI_BOOT_SERVICES                 *gBS;
EFI_CPU_ARCH_PROTOCOL             *gCpu;
EFI_DXE_SERVICES                  *gDxeCoreDS;
EFI_GUID                          *gDxeCoreFileName;
EFI_HANDLE                        gDxeCoreImageHandle;
EFI_LOADED_IMAGE_PROTOCOL         *gDxeCoreLoadedImage;
EFI_METRONOME_ARCH_PROTOCOL       *gMetronome;
EFI_RUNTIME_ARCH_PROTOCOL         gRuntimeTemplate;
EFI_RUNTIME_ARCH_PROTOCOL         *gRuntime = &gRuntimeTemplate;
EFI_RUNTIME_SERVICES              *gDxeCoreRT;
EFI_SECURITY2_ARCH_PROTOCOL       *gSecurity2;
EFI_SECURITY_ARCH_PROTOCOL        *gSecurity;
EFI_SMM_BASE2_PROTOCOL            *gSmmBase2;
EFI_SYSTEM_TABLE                  *gDxeCoreST;
EFI_TIMER_ARCH_PROTOCOL           *gTimer;
EFI_WATCHDOG_TIMER_ARCH_PROTOCOL  *gWatchdogTimer;
VOID                              *gHobList;

extern LIST_ENTRY  mDiscoveredList;
extern LIST_ENTRY  gHandleList;

static EFI_HANDLE  mHandle[MOST_HANDLES];   ///< In the order in which scripts made them.
static UINTN       mHandleCount;
static UINTN       mVolumesSeen;

//
// What the core is linked with. Memory that it frees is never given out again.
//
VOID *EFIAPI AllocatePool (UINTN Length) { return malloc (Length + 16); }
VOID *EFIAPI AllocateZeroPool (UINTN Length) { return calloc (1, Length + 16); }
VOID *EFIAPI AllocateRuntimeZeroPool (UINTN Length) { return calloc (1, Length + 16); }
VOID EFIAPI FreeAlignedPages (VOID *Buffer, UINTN Pages) { }
VOID EFIAPI FreePool (VOID *Buffer) { }
EFI_STATUS EFIAPI CoreFreePool (VOID *Buffer) { return EFI_SUCCESS; }
VOID CoreInitializeTimer (VOID) { }
VOID CoreUpdateDebugTableCrc32 (VOID) { }
VOID CalculateEfiHdrCrc (EFI_TABLE_HEADER *Header) { }
VOID EFIAPI EfiEventEmptyFunction (EFI_EVENT Event, VOID *Context) { }

VOID *EFIAPI
AllocateCopyPool (
  UINTN       Length,
  CONST VOID  *Buffer
  )
{
  return memcpy (malloc (Length + 16), Buffer, Length);
}

VOID *EFIAPI
AllocateAlignedPages (
  UINTN  Pages,
  UINTN  Alignment
  )
{
  return aligned_alloc (MAX (Alignment, EFI_PAGE_SIZE), Pages * EFI_PAGE_SIZE);
}

INTN EFIAPI
HighBitSet64 (
  UINT64  Operand
  )
{
  return Operand != 0 ? 63 - __builtin_clzll (Operand) : -1;
}

EFI_STATUS EFIAPI
CoreAllocatePool (
  EFI_MEMORY_TYPE  Type,
  UINTN            Length,
  VOID             **Buffer
  )
{
  *Buffer = AllocatePool (Length);
  return EFI_SUCCESS;
}

EFI_STATUS EFIAPI
ReportStatusCodeWithExtendedData (
  EFI_STATUS_CODE_TYPE   Type,
  EFI_STATUS_CODE_VALUE  Value,
  CONST VOID             *Data,
  UINTN                  Length
  )
{
  return EFI_SUCCESS;
}

VOID EFIAPI
EfiInitializeFwVolDevicepathNode (
  MEDIA_FW_VOL_FILEPATH_DEVICE_PATH  *Node,
  CONST EFI_GUID                     *Name
  )
{
  Node->Header.Type      = MEDIA_DEVICE_PATH;
  Node->Header.SubType   = MEDIA_PIWG_FW_FILE_DP;
  Node->Header.Length[0] = sizeof *Node;
  Node->Header.Length[1] = 0;
  Node->FvFileName       = *Name;
}

EFI_EVENT EFIAPI
EfiCreateProtocolNotifyEvent (
  EFI_GUID          *Protocol,
  EFI_TPL           Tpl,
  EFI_EVENT_NOTIFY  Function,
  VOID              *Context,
  VOID              **Registration
  )
{
  EFI_EVENT  Event;

  CoreCreateEvent (EVT_NOTIFY_SIGNAL, Tpl, Function, Context, &Event);
  CoreRegisterProtocolNotify (Protocol, Event, Registration);
  CoreSignalEvent (Event);
  return Event;
}

//
// EDK2 keeps a flag for each architectural protocol, which nothing clears, and calls through the
// interfaces at once. Scripts install numbers, so here the protocols are asked for.
//
static EFI_GUID  *CONST  mArchitectural[] = {
  &gEfiSecurityArchProtocolGuid,
  &gEfiCpuArchProtocolGuid,
  &gEfiMetronomeArchProtocolGuid,
  &gEfiTimerArchProtocolGuid,
  &gEfiBdsArchProtocolGuid,
  &gEfiWatchdogTimerArchProtocolGuid,
  &gEfiRuntimeArchProtocolGuid,
  &gEfiVariableArchProtocolGuid,
  &gEfiVariableWriteArchProtocolGuid,
  &gEfiCapsuleArchProtocolGuid,
  &gEfiMonotonicCounterArchProtocolGuid,
  &gEfiResetArchProtocolGuid,
  &gEfiRealTimeClockArchProtocolGuid
};

EFI_STATUS
CoreAllEfiServicesAvailable (
  VOID
  )
{
  UINTN  Index;
  VOID   *Interface;

  for (Index = 0; Index < ARRAY_SIZE (mArchitectural); Index++) {
    if (EFI_ERROR (CoreLocateProtocol (mArchitectural[Index], NULL, &Interface))) {
      return EFI_NOT_FOUND;
    }
  }

  return EFI_SUCCESS;
}

//
// Volumes.
//

/** The number of a volume where it lies, or of the one with the same bytes, since the core copies
    nested ones. **/
static int
VolumeLike (
  UINT64  Address
  )
{
  int    Number;
  int    Like;
  UINTN  Length;

  Number = VolumeAt (Address);
  Length = ((EFI_FIRMWARE_VOLUME_HEADER *)Address)->FvLength;
  for (Like = 0; Number < 0 && Like < (int)gPlan.CatalogCount; Like++) {
    if (CompareMem ((VOID *)Address, (VOID *)gPlan.CatalogBase[Like], Length) == 0) {
      Number = Like;
    }
  }

  return Number;
}

static int
VolumeOf (
  EFI_HANDLE  Handle
  )
{
  EFI_FIRMWARE_VOLUME_BLOCK_PROTOCOL  *Block;
  EFI_PHYSICAL_ADDRESS                Address;
  EFI_STATUS                          Status;

  Status = CoreHandleProtocol (Handle, &gEfiFirmwareVolumeBlockProtocolGuid, (VOID **)&Block);
  if (EFI_ERROR (Status)) {
    return -1;
  }

  Block->GetPhysicalAddress (Block, &Address);
  return VolumeLike (Address);
}

/** The handles with a protocol, and how many they are: none where there are none. **/
static UINTN
HandlesOf (
  EFI_GUID    *Protocol,
  EFI_HANDLE  **Handles
  )
{
  UINTN       Count;
  EFI_STATUS  Status;

  Status = CoreLocateHandleBuffer (ByProtocol, Protocol, NULL, &Count, Handles);
  return EFI_ERROR (Status) ? 0 : Count;
}

/** Tells of the volumes that the core has discovered since. **/
static VOID
PrintVolumes (
  VOID
  )
{
  UINTN       Count;
  EFI_HANDLE  *Handles;

  Count = HandlesOf (&gEfiFirmwareVolume2ProtocolGuid, &Handles);
  for ( ; mVolumesSeen < Count; mVolumesSeen++) {
    PrintLine ("dxe volume %d", VolumeOf (Handles[mVolumesSeen]));
  }
}

static BOOLEAN
IsMapped (
  UINT64  Address,
  UINT64  Length
  )
{
  return IsInVolumes (Address, Length) || IsInRange (gPlan.Ram, Address, Length);
}

//
// The actions of a script.
//
static VOID
EndCall (
  FRAME        *Frame,
  CONST CHAR8  *Name,
  EFI_STATUS   Status
  )
{
  Frame->Last = Status;
  PrintLine ("call %s %s", Name, StatusName (Status));
}

static VOID
Add (
  FRAME  *Frame
  )
{
  REGISTER  *Register;

  Register = &Frame->Register[Frame->Action[1]];
  if (Register->Kind != RegisterNumber) {
    Frame->Last = EFI_INVALID_PARAMETER;
    return;
  }

  Register->Value += ReadNumber (Frame->Action + 2, 8);
  Frame->Last      = EFI_SUCCESS;
}

static VOID
Peek (
  FRAME  *Frame
  )
{
  REGISTER  *Address;
  UINTN     Length;

  Address = &Frame->Register[Frame->Action[1]];
  Length  = Frame->Action[2];
  if (Address->Kind != RegisterNumber) {
    EndCall (Frame, "peek", EFI_INVALID_PARAMETER);
  } else if (!IsMapped (Address->Value, Length)) {
    EndCall (Frame, "peek", EFI_NOT_FOUND);
  } else {
    Frame->Last = EFI_SUCCESS;
    PrintLine ("call peek Success %s", HexText ((UINT8 *)Address->Value, Length));
  }
}

/** A protocol as it is installed: the core calls at once through a volume's two, which get another
    name. **/
static EFI_GUID
InstalledName (
  CONST UINT8  *Bytes
  )
{
  EFI_GUID  Name;

  Name = *(CONST EFI_GUID *)Bytes;
  if (CompareGuid (&Name, &gEfiFirmwareVolumeBlockProtocolGuid)
      || CompareGuid (&Name, &gEfiFirmwareVolume2ProtocolGuid)) {
    Name.Data1 ^= 1;
  }

  return Name;
}

static VOID
InstallOnNew (
  FRAME     *Frame,
  EFI_GUID  *Protocol,
  VOID      *Interface
  )
{
  UINTN       Line;
  UINTN       Number;
  EFI_STATUS  Status;

  // Notifications that run within the call make handles behind this one.
  Line            = ReserveLine ("call install");
  Number          = mHandleCount++;
  mHandle[Number] = NULL;
  Status          = CoreInstallProtocolInterface (
                      &mHandle[Number],
                      Protocol,
                      EFI_NATIVE_INTERFACE,
                      Interface
                      );
  Frame->Last     = Status;
  if (EFI_ERROR (Status)) {
    FillLine (Line, "call install %s", StatusName (Status));
    return;
  }

  Frame->Register[Frame->Action[2]] = (REGISTER){ RegisterHandle, (UINTN)mHandle[Number], 0 };
  FillLine (Line, "call install Success 0x%x", (int)Number + 1);
}

static VOID
Install (
  FRAME  *Frame
  )
{
  CONST UINT8  *Action;
  REGISTER     *Interface;
  REGISTER     *Register;
  EFI_GUID     Protocol;
  EFI_HANDLE   Handle;
  UINTN        Line;
  BOOLEAN      IsNew;

  Action    = Frame->Action;
  IsNew     = Action[1] == 0;
  Register  = &Frame->Register[Action[2]];
  Interface = &Frame->Register[Action[19]];
  Protocol  = InstalledName (Action + 3);
  if (Interface->Kind != RegisterNumber || (!IsNew && Register->Kind != RegisterHandle)) {
    EndCall (Frame, "install", EFI_INVALID_PARAMETER);
  } else if (IsNew) {
    InstallOnNew (Frame, &Protocol, (VOID *)Interface->Value);
  } else {
    Line        = ReserveLine ("call install");
    Handle      = (EFI_HANDLE)Register->Value;
    Frame->Last = CoreInstallProtocolInterface (
                    &Handle,
                    &Protocol,
                    EFI_NATIVE_INTERFACE,
                    (VOID *)Interface->Value
                    );
    FillLine (Line, "call install %s", StatusName (Frame->Last));
  }
}

static VOID
Reinstall (
  FRAME  *Frame
  )
{
  REGISTER  *Handle;
  REGISTER  *Old;
  REGISTER  *New;
  UINTN     Line;

  Handle = &Frame->Register[Frame->Action[1]];
  Old    = &Frame->Register[Frame->Action[18]];
  New    = &Frame->Register[Frame->Action[19]];
  if (Handle->Kind != RegisterHandle
      || Old->Kind != RegisterNumber
      || New->Kind != RegisterNumber) {
    EndCall (Frame, "reinstall", EFI_INVALID_PARAMETER);
    return;
  }

  Line        = ReserveLine ("call reinstall");
  Frame->Last = CoreReinstallProtocolInterface (
                  (EFI_HANDLE)Handle->Value,
                  (EFI_GUID *)(Frame->Action + 2),
                  (VOID *)Old->Value,
                  (VOID *)New->Value
                  );
  FillLine (Line, "call reinstall %s", StatusName (Frame->Last));
}

static VOID
Uninstall (
  FRAME  *Frame
  )
{
  REGISTER    *Handle;
  REGISTER    *Interface;
  EFI_STATUS  Status;

  Handle    = &Frame->Register[Frame->Action[1]];
  Interface = &Frame->Register[Frame->Action[18]];
  Status    = EFI_INVALID_PARAMETER;
  if (Handle->Kind == RegisterHandle && Interface->Kind == RegisterNumber) {
    Status = CoreUninstallProtocolInterface (
               (EFI_HANDLE)Handle->Value,
               (EFI_GUID *)(Frame->Action + 2),
               (VOID *)Interface->Value
               );
  }

  EndCall (Frame, "uninstall", Status);
}

static VOID
Locate (
  FRAME  *Frame
  )
{
  EFI_GUID    *Protocol;
  VOID        *Interface;
  UINTN       Count;
  EFI_HANDLE  *Handles;
  EFI_STATUS  Status;

  Protocol = (EFI_GUID *)(Frame->Action + 3);
  Status   = CoreLocateProtocol (Protocol, NULL, &Interface);
  if (EFI_ERROR (Status)) {
    EndCall (Frame, "locate", Status);
    return;
  }

  CoreLocateHandleBuffer (ByProtocol, Protocol, NULL, &Count, &Handles);
  Frame->Register[Frame->Action[1]] = (REGISTER){ RegisterHandle, (UINTN)Handles[0], 0 };
  Frame->Register[Frame->Action[2]] = (REGISTER){ RegisterNumber, (UINTN)Interface, 0 };
  Frame->Last                       = EFI_SUCCESS;
  PrintLine ("call locate Success 0x%llx", (UINT64)(UINTN)Interface);
}

static VOID EFIAPI
RunNotified (
  EFI_EVENT  Event,
  VOID       *Context
  );

/** The next handle that has come since the notification was asked last; FALSE where none is. **/
static BOOLEAN
HasCome (
  NOTIFICATION  *Notification,
  EFI_HANDLE    *Handle
  )
{
  UINTN       Length;
  EFI_STATUS  Status;

  Length = sizeof *Handle;
  Status = CoreLocateHandle (ByRegisterNotify, NULL, Notification->Registration, &Length, Handle);
  return !EFI_ERROR (Status);
}

static VOID
Notify (
  FRAME  *Frame
  )
{
  NOTIFICATION  *Notification;
  EFI_EVENT     Event;
  EFI_HANDLE    Handle;
  EFI_STATUS    Status;

  Notification         = calloc (1, sizeof *Notification);
  Notification->Module = Frame->Module;
  Notification->Block  = Frame->Action[17];
  CopyGuid (&Notification->Protocol, (CONST EFI_GUID *)(Frame->Action + 1));
  Status = CoreCreateEvent (EVT_NOTIFY_SIGNAL, TPL_CALLBACK, RunNotified, Notification, &Event);
  if (!EFI_ERROR (Status)) {
    Status = CoreRegisterProtocolNotify (
               &Notification->Protocol,
               Event,
               &Notification->Registration
               );
  }

  // What is there already is passed over, as by drivers that wait for what comes.
  while (!EFI_ERROR (Status) && HasCome (Notification, &Handle)) {
  }

  EndCall (Frame, "notify", Status);
}

static VOID
Schedule (
  FRAME  *Frame
  )
{
  UINTN       Count;
  UINTN       Index;
  EFI_HANDLE  *Handles;
  EFI_STATUS  Status;

  Status = EFI_NOT_FOUND;
  Count  = HandlesOf (&gEfiFirmwareVolume2ProtocolGuid, &Handles);
  for (Index = 0; Index < Count && EFI_ERROR (Status); Index++) {
    Status = CoreSchedule (Handles[Index], (EFI_GUID *)(Frame->Action + 1));
  }

  EndCall (Frame, "schedule", Status);
}

static VOID
Process (
  FRAME  *Frame
  )
{
  REGISTER                    *Address;
  EFI_FIRMWARE_VOLUME_HEADER  *Header;
  EFI_HANDLE                  Handle;
  EFI_STATUS                  Status;

  Address = &Frame->Register[Frame->Action[1]];
  Header  = (EFI_FIRMWARE_VOLUME_HEADER *)Address->Value;
  if (Address->Kind != RegisterNumber) {
    Status = EFI_INVALID_PARAMETER;
  } else if (!IsMapped (Address->Value, sizeof *Header)) {
    Status = EFI_NOT_FOUND;
  } else {
    Status = CoreProcessFirmwareVolume (Header, Header->FvLength, &Handle);
  }

  EndCall (Frame, "process", Status);
  PrintVolumes ();
}

/** Does an action. FALSE where it ended the script. **/
static BOOLEAN
DoAction (
  FRAME  *Frame
  )
{
  CONST UINT8  *Action;

  Action = Frame->Action;
  switch (*Action) {
    case ActionSet:
      Frame->Register[Action[1]] = (REGISTER){ RegisterNumber, ReadNumber (Action + 2, 8), 0 };
      Frame->Last                = EFI_SUCCESS;
      break;
    case ActionAdd:
      Add (Frame);
      break;
    case ActionPeek:
      Peek (Frame);
      break;
    case ActionLog:
      PrintLine ("log %.*s", Action[1], Action + 2);
      break;
    case ActionSkipIf:
      if ((Frame->Last == EFI_SUCCESS) == (Action[1] == 0)) {
        Frame->Action = SkipActions (Action, Action[2]);
      }

      break;
    case ActionRet:
      PrintLine ("end %s", ScriptStatusName (Action[1]));
      return FALSE;
    case ActionDxeInstall:
      Install (Frame);
      break;
    case ActionDxeReinstall:
      Reinstall (Frame);
      break;
    case ActionDxeUninstall:
      Uninstall (Frame);
      break;
    case ActionDxeLocate:
      Locate (Frame);
      break;
    case ActionDxeNotify:
      Notify (Frame);
      break;
    case ActionSchedule:
      Schedule (Frame);
      break;
    case ActionProcess:
      Process (Frame);
      break;
    case ActionDispatch:
      EndCall (Frame, "dispatch", CoreDispatcher ());
      break;
    default:
      Fail ("no action of DXE has the code %x", *Action);
  }

  Frame->Action = SkipActions (Frame->Action, 1);
  return TRUE;
}

static VOID
RunScript (
  FRAME  *Frame,
  UINTN  Block
  )
{
  if (gModule[Frame->Module].Script == NULL) {
    PrintLine ("end Success");
  } else {
    Frame->Action = FirstAction (gModule[Frame->Module].Script, Block);
    do {
      TakeFuel ();
    } while (DoAction (Frame));
  }

  gFrames--;
}

/** The event of a notification: its block runs for each handle that has come since. **/
static VOID EFIAPI
RunNotified (
  EFI_EVENT  Event,
  VOID       *Context
  )
{
  NOTIFICATION  *Notification;
  EFI_HANDLE    Handle;
  VOID          *Interface;
  FRAME         Frame;

  Notification = Context;
  while (HasCome (Notification, &Handle)) {
    EnterFrame ();
    Interface = NULL;
    CoreHandleProtocol (Handle, &Notification->Protocol, &Interface);
    PrintLine (
      "notify protocol %d %s %s",
      gModule[Notification->Module].Volume,
      GuidText (&gModule[Notification->Module].Name),
      GuidText (&Notification->Protocol)
      );
    Frame             = (FRAME){ .Module = Notification->Module };
    Frame.Register[0] = (REGISTER){ RegisterNumber, (UINTN)Interface, 0 };
    Frame.Register[1] = (REGISTER){ RegisterHandle, (UINTN)Handle, 0 };
    RunScript (&Frame, Notification->Block);
  }
}

//
// Drivers: loading one answers its device path as its handle, and starting it runs its script.
//
static EFI_CORE_DRIVER_ENTRY *
DriverOf (
  LIST_ENTRY  *Link
  )
{
  return CR (Link, EFI_CORE_DRIVER_ENTRY, Link, EFI_CORE_DRIVER_ENTRY_SIGNATURE);
}

EFI_STATUS EFIAPI
CoreLoadImage (
  BOOLEAN                   BootPolicy,
  EFI_HANDLE                Parent,
  EFI_DEVICE_PATH_PROTOCOL  *Path,
  VOID                      *Source,
  UINTN                     Length,
  EFI_HANDLE                *Image
  )
{
  *Image = Path;
  return EFI_SUCCESS;
}

static CONST UINT8 *
FindScript (
  EFI_CORE_DRIVER_ENTRY  *Driver
  )
{
  UINTN       Instance;
  VOID        *Section;
  UINTN       Length;
  UINT32      Authentication;
  EFI_STATUS  Status;

  for (Instance = 0; ; Instance++) {
    Section = NULL;
    Length  = 0;
    Status  = Driver->Fv->ReadSection (
                            Driver->Fv,
                            &Driver->FileName,
                            EFI_SECTION_RAW,
                            Instance,
                            &Section,
                            &Length,
                            &Authentication
                            );
    if (EFI_ERROR (Status)) {
      return NULL;
    }

    if (IsScript (Section, Length, SCRIPT_PHASE_DXE)) {
      return Section;
    }
  }
}

EFI_STATUS EFIAPI
CoreStartImage (
  EFI_HANDLE  Image,
  UINTN       *ExitDataSize,
  CHAR16      **ExitData
  )
{
  LIST_ENTRY             *Link;
  EFI_CORE_DRIVER_ENTRY  *Driver;
  UINTN                  Number;
  MODULE                 *Module;
  FRAME                  Frame;

  Link = mDiscoveredList.ForwardLink;
  while (DriverOf (Link)->ImageHandle != Image) {
    Link = Link->ForwardLink;
  }

  Driver = DriverOf (Link);
  Number = ModuleOf (Driver, VolumeOf (Driver->FvHandle), &Driver->FileName);
  Module = &gModule[Number];
  if (Module->Script == NULL) {
    Module->Script = FindScript (Driver);
  }

  EnterFrame ();
  PrintLine (
    "dxe start %d %s%s",
    Module->Volume,
    GuidText (&Module->Name),
    Module->Starts++ != 0 ? " again" : ""
    );
  Frame = (FRAME){ .Module = Number };
  RunScript (&Frame, 0);
  return EFI_SUCCESS;
}

//
// The end of DXE.
//
static VOID
PrintWaiting (
  VOID
  )
{
  LIST_ENTRY             *Link;
  EFI_CORE_DRIVER_ENTRY  *Driver;

  for (Link = mDiscoveredList.ForwardLink; Link != &mDiscoveredList; Link = Link->ForwardLink) {
    Driver = DriverOf (Link);
    if (!Driver->Initialized && !Driver->IsFvImage) {
      PrintLine ("waiting %d %s", VolumeOf (Driver->FvHandle), GuidText (&Driver->FileName));
    }
  }
}

/** The interfaces of a handle, in the order in which they were installed. **/
static VOID
PrintInterfaces (
  UINTN    Number,
  IHANDLE  *Handle
  )
{
  LIST_ENTRY          *Link;
  PROTOCOL_INTERFACE  *Interface;

  for (Link = Handle->Protocols.BackLink; Link != &Handle->Protocols; Link = Link->BackLink) {
    Interface = CR (Link, PROTOCOL_INTERFACE, Link, PROTOCOL_INTERFACE_SIGNATURE);
    PrintLine (
      "handle %d %s 0x%llx",
      (int)Number,
      GuidText (&Interface->Protocol->ProtocolID),
      (UINT64)(UINTN)Interface->Interface
      );
  }
}

static VOID
PrintHandles (
  VOID
  )
{
  LIST_ENTRY  *Link;
  UINTN       Index;

  for (Index = 0; Index < mHandleCount; Index++) {
    for (Link = gHandleList.ForwardLink; Link != &gHandleList; Link = Link->ForwardLink) {
      if ((EFI_HANDLE)CR (Link, IHANDLE, AllHandles, EFI_HANDLE_SIGNATURE) == mHandle[Index]) {
        PrintInterfaces (Index + 1, mHandle[Index]);
      }
    }
  }
}

VOID
FinishBoot (
  CONST CHAR8  *Result
  )
{
  if (Result == NULL) {
    PrintLine ("dxe stop");
    PrintWaiting ();
    Result = "Done";
  }

  PrintHandles ();
  PrintLine ("result %s", Result);
  FlushLines ();
  exit (0);
}

int
main (
  int    Count,
  CHAR8  **Words
  )
{
  static EFI_LOADED_IMAGE_PROTOCOL  CoreImage;
  static EFI_DEVICE_PATH_PROTOCOL   EndOfPath = {
    END_DEVICE_PATH_TYPE, END_ENTIRE_DEVICE_PATH_SUBTYPE, { 4, 0 }
  };

  if (Count < 6) {
    Fail ("usage: edk2-dxe PLAN AUDIT RAM-FILE HOB-LIST FUEL");
  }

  ReadPlan (Words[1], Words[2], FALSE, atoi (Words[3]));
  gHobList            = (VOID *)strtoull (Words[4], NULL, 0);
  gPlan.Fuel          = strtoull (Words[5], NULL, 0);
  CoreImage.FilePath  = &EndOfPath;
  gDxeCoreLoadedImage = &CoreImage;
  InitializeListHead (&gRuntime->EventHead);
  InitializeListHead (&gRuntime->ImageHead);
  CoreInitializeEventServices ();
  FwVolBlockDriverInit (NULL, NULL);
  FwVolDriverInit (NULL, NULL);
  CoreInitializeDispatcher ();
  PrintVolumes ();
  CoreDispatcher ();
  FinishBoot (NULL);
}
