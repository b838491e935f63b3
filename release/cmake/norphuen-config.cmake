# Link one or several of these libraries, each as norphuen::NAME. The memory functions are in norphuen::malloc and norphuen::arena,
# which compile a file of C in the program that links them. norphuen::arena needs the definition NPH_ARENA_BYTES.
set(norphuen_libraries @LIBRARIES@)
get_filename_component(norphuen_prefix "${CMAKE_CURRENT_LIST_DIR}/../../.." ABSOLUTE)
foreach(library IN LISTS norphuen_libraries)
  if(NOT TARGET norphuen::${library})
    add_library(norphuen::${library} STATIC IMPORTED)
    set_target_properties(norphuen::${library} PROPERTIES
      IMPORTED_LOCATION "${norphuen_prefix}/lib/lib${library}.a"
      INTERFACE_INCLUDE_DIRECTORIES "${norphuen_prefix}/include")
  endif()
endforeach()
foreach(memory malloc arena)
  if(NOT TARGET norphuen::${memory})
    add_library(norphuen::${memory} INTERFACE IMPORTED)
    set_target_properties(norphuen::${memory} PROPERTIES
      INTERFACE_SOURCES "${norphuen_prefix}/share/norphuen/norphuen_${memory}.c"
      INTERFACE_INCLUDE_DIRECTORIES "${norphuen_prefix}/include")
  endif()
endforeach()
