/** @file
  Stands for the AutoGen.h that EDK2's build makes: the PCDs that the compiled files ask for.
**/
#ifdef HOST_DXE
#include <PiDxe.h>
#else
#include <PiPei.h>
#endif
#include <Library/DebugLib.h>

#define _PCD_GET_MODE_BOOL_PcdMigrateTemporaryRamFirmwareVolumes      0
#define _PCD_GET_MODE_BOOL_PcdShadowPeimOnS3Boot                      0
#define _PCD_GET_MODE_BOOL_PcdShadowPeimOnBoot                        0
#define _PCD_GET_MODE_BOOL_PcdPeiCoreImageLoaderSearchTeSectionFirst  0
#define _PCD_GET_MODE_64_PcdLoadModuleAtFixAddressEnable              0
#define _PCD_GET_MODE_32_PcdInitValueInTempStack                      0x5AA55AA5
#define _PCD_GET_MODE_32_PcdPeiCoreMaxPeiStackSize                    0
#define _PCD_GET_MODE_32_PcdLoadFixAddressPeiCodePageNumber           0
#define _PCD_GET_MODE_32_PcdLoadFixAddressRuntimeCodePageNumber       0
#define _PCD_GET_MODE_32_PcdLoadFixAddressBootTimeCodePageNumber      0
#define _PCD_GET_MODE_BOOL_PcdFrameworkCompatibilitySupport           0
#define _PCD_GET_MODE_32_PcdMaximumUnicodeStringLength                1000000
#define _PCD_GET_MODE_32_PcdMaximumAsciiStringLength                  1000000
#define _PCD_GET_MODE_32_PcdMaximumLinkedListLength                   1000000
#define _PCD_GET_MODE_BOOL_PcdVerifyNodeInList                        0
#define _PCD_GET_MODE_BOOL_PcdFfsHack                                 0
#define _PCD_GET_MODE_8_PcdDebugPropertyMask                          0
#define _PCD_GET_MODE_32_PcdFwVolDxeMaxEncapsulationDepth             16
#define _PCD_GET_MODE_32_PcdMaximumDevicePathNodeCount                0

extern EFI_GUID  gStatusCodeCallbackGuid;
extern EFI_GUID  gEfiCallerIdGuid;
