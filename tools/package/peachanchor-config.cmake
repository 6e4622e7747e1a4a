# find_package(peachanchor CONFIG), then target_link_libraries(... peachanchor::peachanchor); peachanchor::nomalloc in a program with
# no malloc; peachanchor::shared for the shared library. find_package(tlsf CONFIG) finds the same, and tlsf::tlsf and
# tlsf::tlsf_nomalloc, the names until version 0.5.
get_filename_component(peachanchor_lib "${CMAKE_CURRENT_LIST_DIR}/../.." ABSOLUTE)
if(NOT EXISTS "${peachanchor_lib}/libpeachanchor.a")
  set(${CMAKE_FIND_PACKAGE_NAME}_FOUND FALSE)
  set(${CMAKE_FIND_PACKAGE_NAME}_NOT_FOUND_MESSAGE "${peachanchor_lib}/libpeachanchor.a isn't built: type make there first")
elseif(NOT TARGET peachanchor::peachanchor)
  get_filename_component(peachanchor_include "${peachanchor_lib}/@INCLUDE@" ABSOLUTE)
  add_library(peachanchor::peachanchor STATIC IMPORTED)
  set_target_properties(peachanchor::peachanchor PROPERTIES
    IMPORTED_LOCATION "${peachanchor_lib}/libpeachanchor.a"
    INTERFACE_LINK_OPTIONS "-Wl,--exclude-libs,libpeachanchor.a")
  add_library(peachanchor::nomalloc STATIC IMPORTED)
  set_target_properties(peachanchor::nomalloc PROPERTIES
    IMPORTED_LOCATION "${peachanchor_lib}/libpeachanchor_nomalloc.a"
    INTERFACE_LINK_OPTIONS "-Wl,--exclude-libs,libpeachanchor_nomalloc.a")
  set(peachanchor_all peachanchor::peachanchor peachanchor::nomalloc)
  if(EXISTS "${peachanchor_lib}/@SONAME@")
    add_library(peachanchor::shared SHARED IMPORTED)
    set_target_properties(peachanchor::shared PROPERTIES
      IMPORTED_LOCATION "${peachanchor_lib}/@SONAME@"
      IMPORTED_SONAME @SONAME@)
    list(APPEND peachanchor_all peachanchor::shared)
  endif()
  set_target_properties(${peachanchor_all} PROPERTIES
    IMPORTED_LINK_INTERFACE_LANGUAGES C
    INTERFACE_INCLUDE_DIRECTORIES "${peachanchor_include}")
  add_library(tlsf::tlsf INTERFACE IMPORTED)
  set_target_properties(tlsf::tlsf PROPERTIES INTERFACE_LINK_LIBRARIES peachanchor::peachanchor)
  add_library(tlsf::tlsf_nomalloc INTERFACE IMPORTED)
  set_target_properties(tlsf::tlsf_nomalloc PROPERTIES INTERFACE_LINK_LIBRARIES peachanchor::nomalloc)
  unset(peachanchor_all)
  unset(peachanchor_include)
endif()
unset(peachanchor_lib)
