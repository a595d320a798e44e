/** @file
  Action scripts as bytes.
**/
#include "Host.h"

UINT64
ReadNumber (
  CONST UINT8  *Bytes,
  UINTN        Length
  )
{
  UINT64  Number;

  Number = 0;
  memcpy (&Number, Bytes, Length);
  return Number;
}

UINTN
ActionLength (
  CONST UINT8  *Action
  )
{
  switch (*Action) {
    case ActionSet:
    case ActionAdd:
      return 10;
    case ActionPool:
      return 6;
    case ActionStore:
      return 7 + Action[6];
    case ActionAddr:
    case ActionPages:
      return 7;
    case ActionDesc:
      return 5 + (Action[3] != 0 ? 1 : sizeof (EFI_GUID));
    case ActionInstall:
    case ActionNotify:
    case ActionLog:
      return 2 + Action[1];
    case ActionPeek:
    case ActionReinstall:
    case ActionMemory:
    case ActionBootMode:
    case ActionSkipIf:
      return 3;
    case ActionLocate:
      return 21;
    case ActionHob:
      return 4 + ReadNumber (Action + 2, 2);
    case ActionRet:
    case ActionProcess:
      return 2;
    case ActionShadow:
    case ActionDispatch:
      return 1;
    case ActionDxeInstall:
    case ActionDxeReinstall:
      return 20;
    case ActionDxeUninstall:
    case ActionDxeLocate:
      return 19;
    case ActionDxeNotify:
      return 18;
    case ActionSchedule:
      return 17;
    default:
      Fail ("no action has the code %x", *Action);
  }
}

CONST UINT8 *
SkipActions (
  CONST UINT8  *Action,
  UINTN        Count
  )
{
  while (Count-- != 0) {
    Action += ActionLength (Action);
  }

  return Action;
}

CONST UINT8 *
FirstAction (
  CONST UINT8  *Script,
  UINTN        Block
  )
{
  CONST UINT8  *Place;

  // A block is the number of its actions in two bytes, and then the actions.
  Place = Script + SCRIPT_HEADER_LENGTH;
  while (Block-- != 0) {
    Place = SkipActions (Place + 2, ReadNumber (Place, 2));
  }

  return Place + 2;
}

BOOLEAN
IsScript (
  CONST UINT8  *Bytes,
  UINTN        Length,
  UINT8        Phase
  )
{
  return Length >= SCRIPT_HEADER_LENGTH && memcmp (Bytes, "PIAS", 4) == 0 && Bytes[5] == Phase;
}
