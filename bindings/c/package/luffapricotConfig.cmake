# luffapricot::luffapricot is the shared library, and luffapricot::static the other one.
get_filename_component(_luffapricot_prefix "${CMAKE_CURRENT_LIST_DIR}/../../.." ABSOLUTE)
include(CMakeFindDependencyMacro)
find_dependency(Threads)
if(NOT TARGET luffapricot::luffapricot)
  add_library(luffapricot::luffapricot SHARED IMPORTED)
  set_target_properties(luffapricot::luffapricot PROPERTIES
    IMPORTED_LOCATION "${_luffapricot_prefix}/lib/libluffapricot.so.@VERSION@"
    IMPORTED_SONAME "libluffapricot.so.@MAJOR@"
    INTERFACE_INCLUDE_DIRECTORIES "${_luffapricot_prefix}/include"
    INTERFACE_LINK_LIBRARIES Threads::Threads)
  add_library(luffapricot::static STATIC IMPORTED)
  set_target_properties(luffapricot::static PROPERTIES
    IMPORTED_LOCATION "${_luffapricot_prefix}/lib/libluffapricot.a"
    INTERFACE_INCLUDE_DIRECTORIES "${_luffapricot_prefix}/include"
    INTERFACE_LINK_LIBRARIES Threads::Threads)
endif()
unset(_luffapricot_prefix)
