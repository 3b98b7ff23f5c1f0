# find_package(bullmyrtle) gives bullmyrtle::bullmyrtle, the shared library, and bullmyrtle::static, with its header for
# C and for C++. It finds them from its own place, so the archive may stand anywhere.
get_filename_component(_bullmyrtle_top "${CMAKE_CURRENT_LIST_DIR}/../../.." ABSOLUTE)

if(NOT CMAKE_SIZEOF_VOID_P EQUAL 8)
  set(bullmyrtle_FOUND FALSE)
  set(bullmyrtle_NOT_FOUND_MESSAGE "this bullmyrtle is for @PLATFORM@, and programs of 64 bits")
  return()
endif()

if(NOT TARGET bullmyrtle::bullmyrtle)
  add_library(bullmyrtle::bullmyrtle SHARED IMPORTED)
  set_target_properties(bullmyrtle::bullmyrtle PROPERTIES
    IMPORTED_LOCATION "${_bullmyrtle_top}/@SHARED@"
    @LINKED@
    INTERFACE_INCLUDE_DIRECTORIES "${_bullmyrtle_top}/include")
  add_library(bullmyrtle::static STATIC IMPORTED)
  set_target_properties(bullmyrtle::static PROPERTIES
    IMPORTED_LOCATION "${_bullmyrtle_top}/lib/libbullmyrtle.a"
    INTERFACE_INCLUDE_DIRECTORIES "${_bullmyrtle_top}/include")
endif()

unset(_bullmyrtle_top)
