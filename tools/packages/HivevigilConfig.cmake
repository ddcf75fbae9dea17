# find_package(Hivevigil) gives Hivevigil::hivevigil, the shared object, and Hivevigil::archive, which a program takes
# in whole. Folders are relative to this file, so that the whole may be moved.
get_filename_component(_hivevigil_prefix "${CMAKE_CURRENT_LIST_DIR}/@UP@" ABSOLUTE)
if(NOT TARGET Hivevigil::hivevigil)
  add_library(Hivevigil::hivevigil SHARED IMPORTED)
  set_target_properties(Hivevigil::hivevigil PROPERTIES
    IMPORTED_LOCATION "${_hivevigil_prefix}/@LIBDIR@/libhivevigil.so.@VERSION@"
    IMPORTED_SONAME "libhivevigil.so.@INTERFACE@"
    INTERFACE_INCLUDE_DIRECTORIES "${_hivevigil_prefix}/include")
  add_library(Hivevigil::archive STATIC IMPORTED)
  set_target_properties(Hivevigil::archive PROPERTIES
    IMPORTED_LOCATION "${_hivevigil_prefix}/@LIBDIR@/libhivevigil.a"
    IMPORTED_LINK_INTERFACE_LANGUAGES "C"
    INTERFACE_INCLUDE_DIRECTORIES "${_hivevigil_prefix}/include")
endif()
unset(_hivevigil_prefix)
