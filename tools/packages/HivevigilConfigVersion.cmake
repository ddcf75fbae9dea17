# A version serves who asks for none above it of the same binary interface (docs/ABI.md).
set(PACKAGE_VERSION "@VERSION@")
set(_hivevigil_asked "${PACKAGE_FIND_VERSION_MAJOR}.${PACKAGE_FIND_VERSION_MINOR}.")
string(REGEX REPLACE "^([1-9][0-9]*)\\..*" "\\1" _hivevigil_asked "${_hivevigil_asked}")
string(REGEX REPLACE "\\.$" "" _hivevigil_asked "${_hivevigil_asked}")
set(PACKAGE_VERSION_COMPATIBLE FALSE)
if(NOT PACKAGE_FIND_VERSION
    OR (_hivevigil_asked STREQUAL "@INTERFACE@" AND NOT PACKAGE_FIND_VERSION VERSION_GREATER PACKAGE_VERSION))
  set(PACKAGE_VERSION_COMPATIBLE TRUE)
endif()
if(PACKAGE_FIND_VERSION VERSION_EQUAL PACKAGE_VERSION)
  set(PACKAGE_VERSION_EXACT TRUE)
endif()
unset(_hivevigil_asked)
