# find_package(dcps) gives the targets dcps::dcps_c, the archive, and dcps::dcps, the shared object.
get_filename_component(_dcps_prefix "${CMAKE_CURRENT_LIST_DIR}/../../.." ABSOLUTE)
if(NOT TARGET dcps::dcps_c)
  add_library(dcps::dcps_c STATIC IMPORTED)
  set_target_properties(dcps::dcps_c PROPERTIES
    IMPORTED_LOCATION "${_dcps_prefix}/lib/libdcps_c.a"
    INTERFACE_INCLUDE_DIRECTORIES "${_dcps_prefix}/include")
endif()
if(NOT TARGET dcps::dcps)
  add_library(dcps::dcps SHARED IMPORTED)
  set_target_properties(dcps::dcps PROPERTIES
    IMPORTED_LOCATION "${_dcps_prefix}/lib/libdcps.so"
    INTERFACE_INCLUDE_DIRECTORIES "${_dcps_prefix}/include")
endif()
unset(_dcps_prefix)
