# Gives the targets text_block_renderer::shared and text_block_renderer::static, and text_block_renderer::text_block_renderer,
# which is the first of them.
get_filename_component(_tbr_lib "${CMAKE_CURRENT_LIST_DIR}/../.." ABSOLUTE)
get_filename_component(_tbr_include "${_tbr_lib}/@UP@/include" ABSOLUTE)

if(NOT TARGET text_block_renderer::shared)
  add_library(text_block_renderer::shared SHARED IMPORTED)
  set_target_properties(text_block_renderer::shared PROPERTIES
    IMPORTED_LOCATION "${_tbr_lib}/libtext_block_renderer.so"
    INTERFACE_INCLUDE_DIRECTORIES "${_tbr_include}")
  add_library(text_block_renderer::static STATIC IMPORTED)
  set_target_properties(text_block_renderer::static PROPERTIES
    IMPORTED_LOCATION "${_tbr_lib}/libtext_block_renderer.a"
    INTERFACE_INCLUDE_DIRECTORIES "${_tbr_include}")
  add_library(text_block_renderer::text_block_renderer INTERFACE IMPORTED)
  set_target_properties(text_block_renderer::text_block_renderer PROPERTIES
    INTERFACE_LINK_LIBRARIES text_block_renderer::shared)
endif()

unset(_tbr_lib)
unset(_tbr_include)
