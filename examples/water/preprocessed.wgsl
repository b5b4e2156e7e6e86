                         
                                      
                

// The height of the water above a point.
fn height(at: vec2<f32>) -> f32 {
           
                      
                    
    return rippleX_naga_oil_mod_XNZXWS43FX(at) + 3.0 * swellX_naga_oil_mod_XNZXWS43FX(at * 4.0);
     
                    
      
}
