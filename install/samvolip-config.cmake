# find_package(samvolip) gives two targets: samvolip::samvolip, the shared library, and samvolip::static, the archive.
get_filename_component(_samvolip_prefix "${CMAKE_CURRENT_LIST_DIR}/../../.." ABSOLUTE)
include(CMakeFindDependencyMacro)
find_dependency(Threads)
if(NOT TARGET samvolip::samvolip)
  add_library(samvolip::samvolip SHARED IMPORTED)
  set_target_properties(samvolip::samvolip PROPERTIES
    IMPORTED_LOCATION "${_samvolip_prefix}/lib/libsamvolip.so"
    INTERFACE_INCLUDE_DIRECTORIES "${_samvolip_prefix}/include")
  add_library(samvolip::static STATIC IMPORTED)
  set_target_properties(samvolip::static PROPERTIES
    IMPORTED_LOCATION "${_samvolip_prefix}/lib/libsamvolip.a"
    INTERFACE_INCLUDE_DIRECTORIES "${_samvolip_prefix}/include"
    INTERFACE_LINK_LIBRARIES Threads::Threads)
endif()
unset(_samvolip_prefix)
