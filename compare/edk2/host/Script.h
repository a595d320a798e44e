/** @file
  Action scripts as bytes (docs/FORMATS.md): what both hosts interpret in the place of machine
  code.
**/
#ifndef SCRIPT_H_
#define SCRIPT_H_

#define SCRIPT_HEADER_LENGTH  8
#define REGISTERS             16
#define SCRIPT_PHASE_PEI      1
#define SCRIPT_PHASE_DXE      2

typedef enum {
  ActionSet          = 0x01,
  ActionAdd          = 0x02,
  ActionPool         = 0x03,
  ActionStore        = 0x04,
  ActionAddr         = 0x06,
  ActionPeek         = 0x07,
  ActionDesc         = 0x08,
  ActionInstall      = 0x09,
  ActionReinstall    = 0x0A,
  ActionNotify       = 0x0B,
  ActionLocate       = 0x0C,
  ActionHob          = 0x0D,
  ActionMemory       = 0x0E,
  ActionPages        = 0x0F,
  ActionBootMode     = 0x10,
  ActionLog          = 0x11,
  ActionSkipIf       = 0x12,
  ActionRet          = 0x13,
  ActionShadow       = 0x14,
  ActionDxeInstall   = 0x20,
  ActionDxeReinstall = 0x21,
  ActionDxeUninstall = 0x22,
  ActionDxeLocate    = 0x23,
  ActionDxeNotify    = 0x24,
  ActionSchedule     = 0x25,
  ActionProcess      = 0x26,
  ActionDispatch     = 0x27
} ACTION_CODE;

typedef enum {
  RegisterEmpty,
  RegisterNumber,
  RegisterPool,
  RegisterDescriptor,
  RegisterHandle
} REGISTER_KIND;

typedef struct {
  REGISTER_KIND    Kind;
  UINT64           Value;
  UINT64           Length;    ///< Of a pool, in bytes.
} REGISTER;

/** A little-endian number of so many bytes. **/
UINT64
ReadNumber (
  CONST UINT8  *Bytes,
  UINTN        Length
  );

/** How many bytes an action takes, its code included. **/
UINTN
ActionLength (
  CONST UINT8  *Action
  );

/** The action that stands so many actions behind this one. **/
CONST UINT8 *
SkipActions (
  CONST UINT8  *Action,
  UINTN        Count
  );

/** The first action of a block of a script. **/
CONST UINT8 *
FirstAction (
  CONST UINT8  *Script,
  UINTN        Block
  );

/** Whether the bytes of a section begin a script of this phase. **/
BOOLEAN
IsScript (
  CONST UINT8  *Bytes,
  UINTN        Length,
  UINT8        Phase
  );

#endif
